  postulate )
x