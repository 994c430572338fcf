postulate
  A : ?
