postulate
  a : Set
  b : c
postulate d : a
