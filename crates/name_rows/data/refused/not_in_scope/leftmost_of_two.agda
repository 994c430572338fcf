postulate x : B C
