data Eq (A : Set) (x : A) : A → Set where
  refl : Eq A x x
postulate
  A : Set
  a b : A
  P : Eq A a b → Set
  x : P refl
