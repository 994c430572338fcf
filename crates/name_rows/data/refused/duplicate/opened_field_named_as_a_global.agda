record R : Set where
  constructor mk
  field
    p : Set
    q : p
postulate q : Set
open R
