data D : Set where
  c = d