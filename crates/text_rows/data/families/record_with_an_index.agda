data Nat : Set where
  zero : Nat
record R (A : Set) : Nat → Set where
