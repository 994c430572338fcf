postulate
  Nat : Set
  z : Nat
