postulate
  A : Set
  x : B
