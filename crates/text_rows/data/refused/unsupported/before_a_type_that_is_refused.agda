postulate
  A : Set Set
postulate
  ℕ : Set → ?
