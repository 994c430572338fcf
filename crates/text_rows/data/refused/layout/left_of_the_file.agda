  postulate
x