postulate
  A : f (g {_} _) _
