postulate x : ((y : Set) → y) → y
