postulate A : Set
postulate x : (y y z : A) → y
