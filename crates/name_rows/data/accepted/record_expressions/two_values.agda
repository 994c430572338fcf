postulate A : Set
postulate x : record { y = A ; z = Set }
