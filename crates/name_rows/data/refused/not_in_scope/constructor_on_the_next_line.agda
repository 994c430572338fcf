data D : Set where
  a : D
  b : a
