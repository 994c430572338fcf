postulate
  A : record { f = _ }
