  postulate
x : λ {!