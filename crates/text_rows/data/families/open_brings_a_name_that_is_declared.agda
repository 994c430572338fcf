postulate
  A B : Set
record Pair : Set where
  field
    fst : A
    B : A
open Pair
