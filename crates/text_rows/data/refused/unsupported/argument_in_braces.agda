postulate
  A : f {x}
