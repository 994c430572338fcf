data List (A : Set) : Set where
  nil : List A
  cons : A → List A → List A
postulate
  A : Set
  G : (A → List A → List A) → Set
  g : G cons
