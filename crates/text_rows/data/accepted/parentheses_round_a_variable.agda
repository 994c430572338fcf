postulate
  A : Set
  f : (A → A) → A
  B : (A → A → A) → Set
  g : (h : A -> A -> A) -> B ((h))
