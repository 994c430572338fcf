record R : Set where
  x : A