data D (x y : A) {z : B} : Set where
  c d : D
  e : D