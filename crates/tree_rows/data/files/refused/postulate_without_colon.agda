postulate
  x