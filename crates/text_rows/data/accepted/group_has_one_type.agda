postulate
  A : Set
  P : A → A → Set
  w : (x y : A) → P x y
  v : (a b : A) → P b a
  Q : ((x : A) (y : A) → P x y) → Set
  u : Q w
