postulate
  A : λ x → x
