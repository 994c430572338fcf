data D : Set where
  c