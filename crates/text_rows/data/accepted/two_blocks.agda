postulate
  A : Set
postulate
  B : Set
