record
  R : Set where
