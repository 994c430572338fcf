data Eq (A : Set) (x : A) : A → Set where
  refl : Eq A x x
postulate
  A : Set
  a b : A
  subst : (P : A → Set) (x y : A) → Eq A x y → P x → P y
  P : Eq A a a → Set
  x : P refl
  e : Eq A a b
  R : ((Q : A → Set) → Q a → Q b) → Set
  z : R (λ Q → subst Q a b e)
