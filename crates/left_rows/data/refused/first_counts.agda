data Nat : Set where
  zero : Nat
  suc : Nat → Nat
data Vec (A : Set) : Nat → Set where
  nil : Vec A zero
  cons : {n : Nat} → A → Vec A n → Vec A (suc n)
data Bool : Set where
  true false : Bool
f : Nat → Nat → Nat
f (suc ()) true = zero
f true () = zero
f zero () x
f x {y} z w = x
g : (n : Nat) → Vec Nat n → Nat
g n (cons {true} x ()) = n
g n (cons x () xs) = n
