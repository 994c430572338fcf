record R : R where
  field
    p : Set
