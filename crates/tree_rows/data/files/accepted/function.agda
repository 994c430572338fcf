f : A
f = e