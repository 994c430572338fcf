record R : Set where
  constructor mk
  field
    p : Set
    q : p
postulate x : R → R.p
