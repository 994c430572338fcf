data Nat : Set where
  zero : Nat
  suc : Nat → Nat
data Vec (A : Set) : Nat → Set where
  nil : Vec A zero
  cons : {n : Nat} → A → Vec A n → Vec A (suc n)
f : Nat → Nat
f {x} = zero
f x {y} = x
g : {x : Nat} → Nat → Nat
g {a} {b} y = y
g {z = a} y = y
g y {a} = y
h : {n : Nat} → Vec Nat n → Nat
h (cons x {xs}) = x
h (cons {k = m} x xs) = x
h (cons {m} {k} x xs) = x
