record R : Set where
  coinductive
  field x : A