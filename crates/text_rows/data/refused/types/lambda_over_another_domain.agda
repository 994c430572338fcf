postulate
  Nat B : Set
  z : Nat
  T : (Nat → Nat) → Set
  w : T (λ (x : B) → z)
