postulate
  A : record { }
