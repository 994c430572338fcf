-- A monoid: a type with an operation and what holds of it. It has a field of type Set, so it is a Set1.
data Eq (A : Set) (x : A) : A → Set where
  refl : Eq A x x

data List (A : Set) : Set where
  nil  : List A
  cons : A → List A → List A

record Monoid : Set1 where
  field
    Carrier    : Set
    unit       : Carrier
    op         : Carrier → Carrier → Carrier
    left-unit  : (x : Carrier) → Eq Carrier (op unit x) x
    right-unit : (x : Carrier) → Eq Carrier (op x unit) x
    assoc      : (x y z : Carrier) → Eq Carrier (op (op x y) z) (op x (op y z))

open Monoid

postulate
  fold  : (M : Monoid) → List (Carrier M) → Carrier M
  twice : (M : Monoid) (x : Carrier M) → Eq (Carrier M) (op M (unit M) (op M (unit M) x)) x

  Nat        : Set
  zero       : Nat
  plus       : Nat → Nat → Nat
  plus-left  : (n : Nat) → Eq Nat (plus zero n) n
  plus-right : (n : Nat) → Eq Nat (plus n zero) n
  plus-assoc : (l m n : Nat) → Eq Nat (plus (plus l m) n) (plus l (plus m n))

  Sums : (M : Monoid) → Carrier M → Set
  sums : (n : Nat) → Sums (record
    { Carrier    = Nat
    ; unit       = zero
    ; op         = plus
    ; left-unit  = plus-left
    ; right-unit = plus-right
    ; assoc      = plus-assoc
    }) (plus n n)
