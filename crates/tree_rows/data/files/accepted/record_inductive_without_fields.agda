record R : Set where
  inductive