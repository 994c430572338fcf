postulate
  A : Set
  f : A →A
