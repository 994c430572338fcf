postulate
  ℕ : Set
  z′ : ℕ
