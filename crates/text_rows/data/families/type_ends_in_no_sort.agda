data Nat : Set where
  zero : Nat
data D : Nat → Nat where
