record R : Set where
  field
    A : Set
    x : ?
