data Nat : Set where
  zero : Nat
  suc : Nat → Nat
f : Nat → Nat
f {x} {y = zero} {suc z} _ .(suc x) = z
