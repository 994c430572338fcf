postulate
  A : Set
  P : A → Set
  q : (A : A) → P A
