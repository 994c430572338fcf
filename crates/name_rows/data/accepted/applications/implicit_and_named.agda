postulate A : Set
postulate x : A {A} {y = A} A
