-- Dependent pairs: the type of the second field has the first.
record Sigma (A : Set) (B : A → Set) : Set where
  constructor both
  field
    first  : A
    second : B first

open Sigma

data Nat : Set where
  zero : Nat
  suc  : Nat → Nat

postulate
  Even      : Nat → Set
  even-zero : Even zero

  P         : Sigma Nat Even → Set
  none      : P (both zero even-zero)
  is-even   : (p : Sigma Nat Even) → Even (first p)

  choice    : (A B : Set) (R : A → B → Set) → ((x : A) → Sigma B (R x)) → Sigma (A → B) (λ f → (x : A) → R x (f x))
