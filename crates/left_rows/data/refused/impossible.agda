data Nat : Set where
  zero : Nat
  suc : Nat → Nat
data Vec (A : Set) : Nat → Set where
  nil : Vec A zero
  cons : {n : Nat} → A → Vec A n → Vec A (suc n)
data Eq {A : Set} (x : A) : A → Set where
  refl : Eq {A} x x
f : {A : Set} → Vec A zero → A
f (cons x xs) = x
f {A} (cons _ _) = zero
g : (n : Nat) → Vec Nat (suc n) → Nat
g n nil = n
g n (cons x (cons y nil)) = n
g zero (cons x (cons y nil)) = x
h : (n : Nat) → Eq {Nat} n (suc n) → Nat
h n refl = n
