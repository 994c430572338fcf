postulate
  A : Set
  F : Set → Set
  x : F (A → A)
