postulate A : Set
postulate x : (y : (y : A) → y) → y
