f : A
g = e
f = e