data Nat : Set where
  zero : Nat
  suc : Nat → Nat
data List (A : Set) : Set where
  nil : List A
  cons : A → List A → List A
postulate
  P : List Nat → Set
  x : P nil
  y : P (cons (suc zero) (cons zero nil))
  F : (Nat → Nat) → Set
  f : F suc
  G : (Nat → List Nat → List Nat) → Set
  g : G (λ n ns → cons n ns)
