data D : Set where
  a : B
  a : D
