data Nat : Set where
  zero : Nat
  suc : Nat → Nat
record Code : Set1 where
  constructor code
  field
    el : Set
open Code
f : el (code (Nat → Nat))
f x = x
g : el (code Nat) → Nat
g (suc n) = n
