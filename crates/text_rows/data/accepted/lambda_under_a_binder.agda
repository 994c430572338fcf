postulate
  Nat : Set
  T : (n : Nat) → (Nat → Nat) → Set
  f : (n : Nat) → T n (λ m → n)
