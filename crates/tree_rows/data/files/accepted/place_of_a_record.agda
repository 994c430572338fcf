record R {x : A} : Set where
  constructor c
  inductive
  field
    y z : A
  field w : B