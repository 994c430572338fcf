postulate
  A : _ → _
