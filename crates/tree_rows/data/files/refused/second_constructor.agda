record R : Set where
  constructor c
  constructor d