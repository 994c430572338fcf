f : f
f = Set
