postulate
  A : f {x = _}
