postulate
  A : ∀ {x : Set} → Set
