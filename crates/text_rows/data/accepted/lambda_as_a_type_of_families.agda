postulate
  Nat : Set
  z : Nat
  P : (Nat → Set) → Set
  w : P (λ n → Nat → Nat)
