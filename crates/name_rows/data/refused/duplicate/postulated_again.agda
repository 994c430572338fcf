postulate A : Set
postulate A : B
