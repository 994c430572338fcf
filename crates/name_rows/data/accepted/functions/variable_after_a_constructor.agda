data Nat : Set where
  zero : Nat
  suc : Nat → Nat
f : Nat → Nat → Nat
f (suc x) y = y
