data Nat : Set where
  zero : Nat
  suc : Nat → Nat
record Pair (A B : Set) : Set where
  constructor pair
  field
    fst : A
    snd : B
open Pair
record Box (A : Set) : Set where
  field
    get : A
open Box
f : Nat → Nat
f zero x = x
f (suc) = zero
f (suc x y) = x
f x .fst = x
g : Nat → Pair Nat Nat
g .fst x = x
g x .get = x
g x y = x
g x .fst .snd = x
h : Pair Nat Nat → Nat
h (pair x) = x
h (pair x y z) = x
