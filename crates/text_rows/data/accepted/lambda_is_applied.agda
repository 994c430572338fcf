postulate
  Nat : Set
  z : Nat
  R : Nat → Set
  Q : (f : Nat → Nat) → R (f z)
  S : R z → Set
  w : S (Q (λ n → n))
