postulate
  A : B
  A : _
