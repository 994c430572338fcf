postulate
  Nat : Set
  z : Nat
  w : (x : z) → Nat
