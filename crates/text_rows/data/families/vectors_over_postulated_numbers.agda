postulate
  Nat : Set
  zero : Nat
  suc : Nat → Nat
data Vec (A : Set) : Nat → Set where
  nil : Vec A zero
  cons : (n : Nat) → A → Vec A n → Vec A (suc n)
postulate
  Bit : Set
  one : Bit
  map : (A B : Set) (n : Nat) → (A → B) → Vec A n → Vec B n
  P : (n : Nat) → Vec Bit n → Set
  x : P (suc zero) (cons zero one nil)
  y : P (suc zero) (map Bit Bit (suc zero) (λ b → one) (cons zero one nil))
