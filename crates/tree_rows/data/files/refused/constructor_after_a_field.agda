record R : Set where
  field x : A
  constructor c