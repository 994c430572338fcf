postulate
  F : (A B : Set) → A → B → Set
  A B : Set
  a : A
  b : B
  x : F A B a b
