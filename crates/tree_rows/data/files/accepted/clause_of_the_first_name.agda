f g : A
f = e