data List (A : Set) : Set where
  nil : List A
data Tree (A : Set) : Set where
  leaf : Tree A
postulate
  A : Set
  P : Tree A → Set
  x : P leaf
  y : P nil
