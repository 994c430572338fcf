f : Set
f = f
f = Set
