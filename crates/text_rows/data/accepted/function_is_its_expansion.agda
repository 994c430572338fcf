postulate
  Nat : Set
  z : Nat
  g : Nat → Nat
  T : (Nat → Nat) → Set
  m : T g
  U : T (λ x → g x) → Set
  v : U m
