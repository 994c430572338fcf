postulate
  A : A
  A : Set
