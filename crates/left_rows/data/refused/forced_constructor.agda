data Nat : Set where
  zero : Nat
  suc : Nat → Nat
data Vec (A : Set) : Nat → Set where
  nil : Vec A zero
  cons : {n : Nat} → A → Vec A n → Vec A (suc n)
f : (n : Nat) → Vec Nat (suc n) → Nat
f n (cons {zero} x xs) = x
f n (cons {suc m} x xs) = x
f n (cons {suc} x xs) = x
g : Vec Nat (suc zero) → Nat
g (cons {zero} x xs) = x
