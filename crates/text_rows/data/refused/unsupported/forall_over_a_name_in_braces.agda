postulate
  A : ∀ {x} → Set
