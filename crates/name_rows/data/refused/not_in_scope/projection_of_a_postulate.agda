postulate
  A : Set
  x : A .A
