postulate
  A B : Set
  x y z : A → B
