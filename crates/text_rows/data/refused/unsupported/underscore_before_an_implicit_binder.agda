postulate
  A : (y : _) {x : Set} → Set
