postulate
  A : Set
  P : A → Set
  w : ∀ (x : A) (p : P x) → P x
  Q : ((x : A) → P x → P x) → Set
  u : Q w
