record R : Set where
  inductive
  constructor c
  inductive