postulate
  A : Set
  F : Set → Set
  x : F (Set → A)
