record R : Set where
  field
    p : R.p
