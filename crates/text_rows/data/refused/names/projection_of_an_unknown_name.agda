postulate
  A : f .p
