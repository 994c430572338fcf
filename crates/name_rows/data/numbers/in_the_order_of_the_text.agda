data Nat : Set where
  zero : Nat
  suc : Nat → Nat
plus : Nat → Nat → Nat
plus zero m = m
plus (suc n) m = suc (plus n m)
