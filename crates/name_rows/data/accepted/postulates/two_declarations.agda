postulate A : Set
postulate x : A
postulate y : x
