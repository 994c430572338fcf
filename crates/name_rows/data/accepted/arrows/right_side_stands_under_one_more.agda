postulate A : Set
postulate x : (y z : A) → y → y → z
