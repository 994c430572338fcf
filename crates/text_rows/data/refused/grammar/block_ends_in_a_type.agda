postulate
  B : λ x → x
  C : (
