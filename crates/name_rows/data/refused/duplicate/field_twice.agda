record R : Set where
  field
    p : Set
    p : Set
