
f = e