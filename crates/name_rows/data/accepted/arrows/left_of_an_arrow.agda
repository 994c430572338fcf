postulate A : Set
postulate x : (A → A) → A
