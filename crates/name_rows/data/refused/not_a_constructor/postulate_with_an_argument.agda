data Nat : Set where
  zero : Nat
  suc : Nat → Nat
postulate c : Nat
f : Nat → Nat
f (c x) = ?
