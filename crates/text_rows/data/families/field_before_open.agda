record Pair (A B : Set) : Set where
  field
    fst : A
    snd : B
postulate
  A : Set
  P : A → Set
  p : Pair A A
  x : P (fst p)
