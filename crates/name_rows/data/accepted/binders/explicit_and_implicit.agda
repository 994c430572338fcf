postulate A : Set
postulate x : (y z : A) {w : A} → A
