postulate
  x : C
  y : _ → x
