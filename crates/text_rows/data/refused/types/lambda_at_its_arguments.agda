postulate
  Nat : Set
  z : Nat
  R : Nat → Set
  w : R ((λ x → x) z)
