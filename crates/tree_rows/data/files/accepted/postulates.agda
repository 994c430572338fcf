postulate
  x y : A
  z : B