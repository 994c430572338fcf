postulate
  F : Set → Set
  A : F Set1
