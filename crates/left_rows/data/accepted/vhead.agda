data Nat : Set where
  zero : Nat
  suc : Nat → Nat
data Vec (A : Set) : Nat → Set where
  nil : Vec A zero
  cons : {n : Nat} → A → Vec A n → Vec A (suc n)
vhead : {A : Set} {n : Nat} → Vec A (suc n) → A
vhead (cons x xs) = x
