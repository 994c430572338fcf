f : Set
f = Set
