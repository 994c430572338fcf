postulate
  A : Set  B : Set
