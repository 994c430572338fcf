-- Pairs, and that each pair is the pair of its fields.
record Pair (A B : Set) : Set where
  constructor pair
  field
    fst : A
    snd : B

open Pair

postulate
  swap : (A B : Set) → Pair A B → Pair B A

  Nat Bool : Set
  zero     : Nat
  true     : Bool

  P        : Pair Nat Bool → Set
  by-name  : P (pair zero true)
  by-field : P (record { snd = true ; fst = zero })
  parts    : (x : Pair Nat Bool) → P (pair (fst x) (x .snd))

  Uses     : (x : Pair Nat Bool) → P x → Set
  eta      : (x : Pair Nat Bool) → Uses x (parts x)
