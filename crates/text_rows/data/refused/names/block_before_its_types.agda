postulate
  F : Set → Set
  x : F Set
  y : B
