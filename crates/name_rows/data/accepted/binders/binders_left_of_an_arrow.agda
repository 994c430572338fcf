postulate A : Set
postulate x : (y : A) → ((y : y) → y) → y
