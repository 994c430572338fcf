-- Checked with --depth 3: under its λ the value is compared three levels deep, but the kernel compares the two function types whole, which is one more.
postulate
  Nat : Set
  g : Nat → Nat
  T : (Nat → Nat) → Set
  m : T g
  U : (Nat → T (λ x → g x)) → Set
  v : U (λ n → m)
