postulate A : Set
postulate x : ∀ y {z} (w : A) {u v : A} → z
