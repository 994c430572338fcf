postulate
  Set01 : Set
