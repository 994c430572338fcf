postulate
  Nat : Set
  z : Nat
  T : (Nat → Nat → Nat) → Set
  a : T (λ (x y : Nat) → x)
  b : T (λ x (y : Nat) → y)
  c : T (λ _ _ → z)
  d : T (\ x → λ y → z)
