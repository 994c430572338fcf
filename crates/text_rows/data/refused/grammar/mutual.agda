data Nat : Set where
  zero : Nat
  suc : Nat → Nat
mutual