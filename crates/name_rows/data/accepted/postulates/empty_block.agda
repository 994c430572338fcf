postulate A : Set
postulate
