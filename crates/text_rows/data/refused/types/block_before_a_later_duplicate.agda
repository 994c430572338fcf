postulate
  A : Set
  x : A A
postulate
  A : Set
