record Pair (A B : Set) : Set where
  field
    fst : A
    snd : B
postulate
  A : Set
  P : A → Set
  p : Pair A A
  x : P (p .Pair.fst)
  y : P (Pair.snd p)
