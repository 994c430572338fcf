-- Streams, a coinductive record: they are known by what their fields give, and so is that two of them are alike.
postulate
  Same : (A : Set) → A → A → Set

record Stream (A : Set) : Set where
  coinductive
  field
    head : A
    tail : Stream A

open Stream

record Alike (A : Set) (s t : Stream A) : Set where
  coinductive
  field
    heads : Same A (head s) (head t)
    tails : Alike A (tail s) (tail t)

postulate
  repeat      : (A : Set) → A → Stream A
  repeat-head : (A : Set) (x : A) → Same A (head (repeat A x)) x
  repeat-tail : (A : Set) (x : A) → Alike A (tail (repeat A x)) (repeat A x)

  map         : (A B : Set) → (A → B) → Stream A → Stream B
  map-third   : (A B : Set) (f : A → B) (s : Stream A) → Same B (map A B f s .tail .tail .head) (f (s .tail .tail .head))

  Known       : (A : Set) (s t : Stream A) → Same A (s .head) (t .head) → Set
  -- a field of a record that is not opened
  known       : (A : Set) (s t : Stream A) (e : Alike A s t) → Known A s t (e .Alike.heads)
