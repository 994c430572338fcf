record R (A : Set) : Set where
  field
    x : A
    B : A → Set
