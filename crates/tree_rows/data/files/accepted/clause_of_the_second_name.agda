f g : A
g = e