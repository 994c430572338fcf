postulate A A : B
