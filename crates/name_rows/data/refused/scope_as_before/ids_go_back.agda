postulate
  a : Set
  b : c
postulate d : Set
postulate e : d
