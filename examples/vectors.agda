-- Vectors: lists whose type has their length, which is an index.
data Nat : Set where
  zero : Nat
  suc  : Nat → Nat

data Vec (A : Set) : Nat → Set where
  nil  : Vec A zero
  cons : (n : Nat) → A → Vec A n → Vec A (suc n)

postulate
  head   : (A : Set) (n : Nat) → Vec A (suc n) → A
  map    : (A B : Set) (n : Nat) → (A → B) → Vec A n → Vec B n
  plus   : Nat → Nat → Nat
  append : (A : Set) (m n : Nat) → Vec A m → Vec A n → Vec A (plus m n)

  Sorted : (n : Nat) → Vec Nat n → Set
  pair   : Sorted (suc (suc zero)) (cons (suc zero) zero (cons zero (suc zero) nil))
  raised : Sorted (suc zero) (map Nat Nat (suc zero) (λ n → suc n) (cons zero zero nil))
