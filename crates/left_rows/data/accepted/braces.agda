data Nat : Set where
  zero : Nat
  suc : Nat → Nat
f : {x y : Nat} → Nat → Nat
f {a} {b} z = z
f {a} z = z
f {y = b} z = z
f {x = suc a} {y = _} z = z
g : Nat → {x : Nat} → Nat
g y = y
g y {z} = y
g y {.(y)} = y
