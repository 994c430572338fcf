postulate
  A : Set
  P : Set → Set
  R : (g : (x : A) → A) → Set
  Q : (((y : A) → A) → Set) → Set
  t : Q R
