data Nat : Set where
  zero : Nat
  suc : Nat → Nat
record Code : Set1 where
  constructor code
  field
    el : Set
open Code
f : el (code Nat) → Nat
f zero = zero
g : el (code (el (code Nat))) → Nat
g zero = zero
g ()
g x = x
h : el (code (el (code (Nat → Nat))))
h x = x
