postulate
  A : Set
record Pair : Set where
  constructor pair
  field
    fst : A
    snd : A
open Pair
postulate
  S : Pair → Set
  m : (p : Pair) → S p
  U : (p : Pair) → S (pair (fst p) (snd p)) → Set
  w : (p : Pair) → U p (m p)
