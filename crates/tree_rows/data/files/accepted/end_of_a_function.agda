f : A
f (c x)
f y = e
