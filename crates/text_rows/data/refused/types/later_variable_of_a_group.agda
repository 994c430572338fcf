postulate
  A : Set
  P : A → Set
  w : (x : A) (p q : P x) → P q
