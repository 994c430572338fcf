record R : Set where
  constructor c
  field x : A