postulate
  A B : Set
  P : A → Set
  x y : A
  p : P y
