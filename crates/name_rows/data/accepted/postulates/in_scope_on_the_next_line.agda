postulate A : Set
postulate
  x : A
  y : x
