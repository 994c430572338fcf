postulate
  A : Set
  x : A A
  A : Set
