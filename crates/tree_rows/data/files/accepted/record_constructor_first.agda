record R : Set where
  constructor c
  coinductive
  field x : A