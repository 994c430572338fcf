-- The second parameter y is the same in each constructor. What a constructor chooses must be an index: Eq (A : Set) (x : A) : A → Set.
data Eq (A : Set) (x y : A) : Set where
  refl : (z : A) → Eq A z z
