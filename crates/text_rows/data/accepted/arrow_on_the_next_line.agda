postulate
  A : Set
    → Set
