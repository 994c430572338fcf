postulate
  Nat : Set
  z : Nat
  P : Nat → Set
  w : (n : Nat) → P n
  y : P z
