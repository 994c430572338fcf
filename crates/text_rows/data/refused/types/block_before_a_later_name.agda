postulate
  F : Set → Set
  x : F Set
postulate
  y : B
