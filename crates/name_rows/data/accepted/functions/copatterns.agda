record R : Set where
  constructor mk
  field
    p : Set
    q : p
open R
r : R
r .p = Set
r .R.q = r
