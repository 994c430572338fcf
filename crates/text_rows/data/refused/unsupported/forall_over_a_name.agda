postulate
  A : ∀ (y : Set) x → _
