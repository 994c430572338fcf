postulate
  A : Set
  a : A
record Pair : Set where
  field
    fst snd : A
postulate
  P : Pair → Set
  x : P (record { fst = a })
