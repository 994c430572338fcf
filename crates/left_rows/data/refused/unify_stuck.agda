data Nat : Set where
  zero : Nat
  suc : Nat → Nat
data Vec (A : Set) : Nat → Set where
  nil : Vec A zero
  cons : {n : Nat} → A → Vec A n → Vec A (suc n)
data Fin : Nat → Set where
  fzero : {n : Nat} → Fin (suc n)
  fsuc : {n : Nat} → Fin n → Fin (suc n)
data Bool : Set where
  true false : Bool
data Code : Set → Set1 where
  nat : Code Nat
plus : Nat → Nat → Nat
plus m n = n
f : (x y : Nat) → Vec Nat (plus x y) → Nat
f x y nil = x
f x y (cons a as) = a
g : (x y : Nat) → Fin (plus x y) → Nat
g x y ()
h : Code Bool → Nat
h nat = zero
