data D : Set where
  a : D
  b : E
postulate x : D
