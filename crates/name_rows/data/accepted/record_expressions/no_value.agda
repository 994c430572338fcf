postulate A : Set
postulate x : record {}
