postulate A : Set
postulate x : {! A !}
