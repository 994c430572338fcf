postulate
  A : {x : _} → Set
