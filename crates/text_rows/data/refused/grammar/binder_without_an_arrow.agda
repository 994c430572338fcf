postulate
  A : (A : Set)
