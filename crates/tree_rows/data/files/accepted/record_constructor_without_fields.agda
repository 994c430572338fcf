record R : Set where
  constructor c