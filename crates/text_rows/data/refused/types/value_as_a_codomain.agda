postulate
  Nat : Set
  z : Nat
  w : Nat → z
