postulate
  A : A
