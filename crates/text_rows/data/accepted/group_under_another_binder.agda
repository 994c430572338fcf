postulate
  A : Set
  P : A → Set
  w : (x : A) (p q : P x) → P x
  Q : ((x : A) → P x → (r : P x) → P x) → Set
  u : Q w
