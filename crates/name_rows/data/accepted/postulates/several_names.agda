postulate A : Set
postulate x y : A
