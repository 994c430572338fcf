f =
g = e