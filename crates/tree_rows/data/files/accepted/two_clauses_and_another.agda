f : A
f x = e
f y = e
g z = e