data Nat : Set where
  zero : Nat
  suc : Nat → Nat
record R : Set where
  constructor suc
