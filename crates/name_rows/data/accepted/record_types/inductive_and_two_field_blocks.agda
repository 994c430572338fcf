record Pair (A B : Set) : Set where
  inductive
  field fst : A
  field snd : B
