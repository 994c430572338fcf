record R : Set where
  field x = A