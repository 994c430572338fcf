-- A record value has each field of its record, once, and no other.
record Point : Set1 where
  field
    Number : Set
    x y    : Number

postulate
  Nat    : Set
  zero   : Nat
  Shown  : Point → Set
  origin : Shown (record { Number = Nat ; x = zero })
