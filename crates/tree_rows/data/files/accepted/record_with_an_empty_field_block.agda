record R (x : A) : Set where
  field