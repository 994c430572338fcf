postulate
  x : B
  y : (
