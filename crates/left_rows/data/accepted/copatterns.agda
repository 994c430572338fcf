data Nat : Set where
  zero : Nat
  suc : Nat → Nat
data Eq {A : Set} (x : A) : A → Set where
  refl : Eq {A} x x
record Stream (A : Set) : Set where
  coinductive
  field
    head : A
    tail : Stream A
open Stream
record Sigma (A : Set) (B : A → Set) : Set where
  constructor sig
  field
    one : A
    two : B one
record Fun : Set where
  field
    app : Nat → Nat
open Fun
repeat : {A : Set} → A → Stream A
repeat {A} x .head = x
repeat x .tail = repeat x
nested : Nat → Stream (Stream Nat)
nested n .tail .tail .head .head = n
inserted : {A : Set} {x : A} → Stream A
inserted .head = inserted
same : (A : Set) (x : A) → Sigma A (λ y → Eq {A} x y)
same A x .Sigma.one = x
same A x .Sigma.two = refl
after : Nat → Fun
after x .app (suc y) = y
