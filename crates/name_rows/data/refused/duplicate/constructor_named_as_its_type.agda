data D : Set where
  D : D
