postulate x : (y : y) → Set
