postulate
  A : Set
  B : A →
