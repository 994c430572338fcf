record R : Set where
  inductive
  coinductive