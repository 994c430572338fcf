-- Checked with --depth 1: the comparison of a function with its expansion goes deeper. Without the option the file is accepted.
postulate
  Nat : Set
  g : Nat → Nat
  T : (Nat → Nat) → Set
  m : T g
  U : T (λ x → g x) → Set
  v : U m
