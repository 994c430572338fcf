postulate A : Set
postulate x : λ y _ {z} (w : A) {u : A} → y
