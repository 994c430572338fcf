postulate
  A : Set → λ {x} → x
