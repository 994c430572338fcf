data Nat : Set where
  zero : Nat
  suc : Nat → Nat
zero : Nat
zero = zero
