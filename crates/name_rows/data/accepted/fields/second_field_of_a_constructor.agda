data Nat : Set where
  zero : Nat
  suc : Nat → Nat
record R : Set where
  field
    p : Nat
    q : p
postulate a : R.q zero
