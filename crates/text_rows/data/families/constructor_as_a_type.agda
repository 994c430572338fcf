data Nat : Set where
  zero : Nat
postulate
  x : zero
