postulate
  A : \x → x
