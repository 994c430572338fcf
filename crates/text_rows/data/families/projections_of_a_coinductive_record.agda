record Stream (A : Set) : Set where
  coinductive
  field
    head : A
    tail : Stream A
open Stream
postulate
  Nat : Set
  P : Nat → Set
  s : Stream Nat
  x : P (head (tail s))
  y : P (s .tail .tail .head)
  t : Stream (Stream Nat)
  z : P (head (head t))
