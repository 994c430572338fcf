postulate
  A : Set
postulate
postulate
  B : A → Set
