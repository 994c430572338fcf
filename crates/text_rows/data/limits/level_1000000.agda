postulate x : Set1000000
