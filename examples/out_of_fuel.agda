-- Checked with --fuel 1: that T (T A) is A takes two steps, one for each λ that meets its argument. Without the option the file is accepted.
postulate
  A : Set
  a : A
  F : (T : Set → Set) → T (T A) → Set
  w : F (λ X → X) a
