postulate A : Set
postulate x : (y : A) {z : A} → A {w = y} (record { v = z })
