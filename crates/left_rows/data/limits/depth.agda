data Nat : Set where
  zero : Nat
  suc : Nat → Nat
data Vec (A : Set) : Nat → Set where
  nil : Vec A zero
  cons : {n : Nat} → A → Vec A n → Vec A (suc n)
f : (n : Nat) → Vec Nat n → Nat
f n (cons x xs) = x
g : (n : Nat) → Vec Nat (suc n) → Nat
g n nil = n
g n (cons x xs) = x
g n ()
