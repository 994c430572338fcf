postulate
  F : Set → Set
