postulate
  z : Nat
  Nat : Set
