postulate A A : Set
