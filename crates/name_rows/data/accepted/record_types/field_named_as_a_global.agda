postulate q : Set
record R : Set where
  constructor mk
  field
    p : Set
    q : p
