postulate
  Nat : Set
  z : Nat
  R : Nat → Set
  w : R z z
