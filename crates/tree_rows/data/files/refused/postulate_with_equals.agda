postulate
  x y = A