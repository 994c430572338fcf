postulate
  Nat B : Set
  b : B
  T : (Nat → Nat) → Set
  w : T (λ x → b)
