data Nat : Set where
  zero : Nat
  suc : Nat → Nat
record S : Set where
  field
    t : Nat
open S
f : Nat
f (suc .t) = zero
