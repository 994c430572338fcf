data Nat : Set where
  zero : Nat
  suc : Nat → Nat
f g : Nat → Nat
f x = x
