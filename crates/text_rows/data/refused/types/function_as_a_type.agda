postulate
  Nat : Set
  R : Nat → Set
  w : R
