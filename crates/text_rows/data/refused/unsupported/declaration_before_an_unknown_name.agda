postulate
  x : C
f : Set
f = Set
