postulate
  A : Set → _
