-- The values of a record are checked in the order of its fields, each at its field's type.
record Pair (A B : Set) : Set where
  constructor pair
  field
    fst : A
    snd : B

postulate
  Nat Bool : Set
  zero     : Nat
  true     : Bool
  P        : Pair Nat Bool → Set
  p        : P (record { fst = true ; snd = zero })
