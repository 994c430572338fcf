record R : Set where
  constructor