postulate
  Nat : Set
  T : (Nat → Nat) → Set
  w : T (λ (x : Nat) → x)
