postulate
  A : (λ x → _)
