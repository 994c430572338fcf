postulate
  F : Set1 → Set
  A : F Set1
