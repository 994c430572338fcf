postulate x : x
