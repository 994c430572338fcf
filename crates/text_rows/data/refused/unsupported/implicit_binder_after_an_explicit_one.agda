postulate
  A : (y : Set) {x : Set} → Set
