postulate
  A : f {! _ !}
