postulate A : Set
postulate x : _
