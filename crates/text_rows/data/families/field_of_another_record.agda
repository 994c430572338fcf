postulate
  A : Set
  a : A
record Pair : Set where
  field
    fst snd : A
record Box : Set where
  field
    it : A
postulate
  P : Pair → Set
  x : P (record { fst = a ; it = a })
