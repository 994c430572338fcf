postulate
  A : Set
  f : A → A
  x : f A
