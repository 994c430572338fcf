postulate
  A : Set
  a b : A
record Pair : Set where
  constructor pair
  field
    fst snd : A
open Pair
postulate
  P : A → Set
  m : P (snd (pair a b))
  U : P b → Set
  w : U m
