-- Equality as a family: its parameters are a type and a value, its index the value that is equal.
data Eq (A : Set) (x : A) : A → Set where
  refl : Eq A x x

postulate
  sym   : (A : Set) (x y : A) → Eq A x y → Eq A y x
  trans : (A : Set) (x y z : A) → Eq A x y → Eq A y z → Eq A x z
  cong  : (A B : Set) (f : A → B) (x y : A) → Eq A x y → Eq B (f x) (f y)
  subst : (A : Set) (P : A → Set) (x y : A) → Eq A x y → P x → P y
  J     : (A : Set) (x : A) (P : (y : A) → Eq A x y → Set) → P x refl → (y : A) (e : Eq A x y) → P y e

  Reflexive : (A : Set) → ((x : A) → Eq A x x) → Set
  reflexive : (A : Set) → Reflexive A (λ x → refl)
