postulate
  Nat : Set
  z : Nat
data Shape : (Nat → Nat) → Set where
  identity : Shape (λ n → n)
  constant : (m : Nat) → Shape (λ n → m)
postulate
  P : (f : Nat → Nat) → Shape f → Set
  x : P (λ n → n) identity
  y : P (λ n → z) (constant z)
