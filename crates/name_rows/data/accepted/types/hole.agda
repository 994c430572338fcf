postulate A : Set
postulate x : ?
