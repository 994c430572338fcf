 postulate
  A : Set
