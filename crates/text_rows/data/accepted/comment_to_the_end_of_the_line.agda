postulate
  A : Set -- a comment
