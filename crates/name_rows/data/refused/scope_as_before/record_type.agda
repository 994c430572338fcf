record R : Set where
  field
    p : Set
    q : r
postulate x : R.p
