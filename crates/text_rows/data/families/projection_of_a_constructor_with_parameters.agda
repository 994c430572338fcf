record Pair (A : Set) : Set where
  constructor pair
  field
    fst snd : A
open Pair
postulate
  A : Set
  a b : A
  P : A → Set
  x : P (fst (pair a b))
