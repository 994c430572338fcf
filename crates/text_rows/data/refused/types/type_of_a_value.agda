postulate
  A : Set
  x : A
  y : x
