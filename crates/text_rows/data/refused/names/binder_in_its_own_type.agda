postulate
  A : (x y : x) → Set
