postulate
  A : Set
postulate A : Set
