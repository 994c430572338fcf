postulate
  A : f x .p _
