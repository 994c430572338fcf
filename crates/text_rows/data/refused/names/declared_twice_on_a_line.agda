postulate
  A B A : Set
