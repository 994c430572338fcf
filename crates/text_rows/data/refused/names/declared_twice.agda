postulate
  A : Set
  A : Set
