postulate
  A : Set
g : A
postulate B : _
