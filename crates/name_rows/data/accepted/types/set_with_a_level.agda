postulate A : Set
postulate x : Set3
