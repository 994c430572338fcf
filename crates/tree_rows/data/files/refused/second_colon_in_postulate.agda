postulate
  x : A B : C