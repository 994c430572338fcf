postulate
  A : Set
  f : A