postulate
  f : (x x : (x x : (x x : Set) → Set) → Set) → Set
