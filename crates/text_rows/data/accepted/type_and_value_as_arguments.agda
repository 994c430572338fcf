postulate
  P : (A : Set) → A → Set
  B : Set
  b : B
  y : P B b
