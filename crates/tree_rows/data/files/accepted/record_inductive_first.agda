record R : Set where
  inductive
  constructor c
  field
    x : A
  field y : B