record Sigma (A : Set) (B : A → Set) : Set where
  constructor pair
  field
    fst : A
    snd : B fst
open Sigma
postulate
  A : Set
  a : A
  B : A → Set
  b : B a
  P : Sigma A B → Set
  x : P (pair a b)
  y : (p : Sigma A B) → P (pair (fst p) (snd p))
  U : (p : Sigma A B) → P p → Set
  w : (p : Sigma A B) → U p (y p)
