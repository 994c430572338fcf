data Eq {A : Set} (x : A) : A → Set where
  refl : Eq {A} x x
sym : {A : Set} (x y : A) → Eq {A} x y → Eq {A} y x
sym x .x refl = refl
sym2 : {A : Set} (x y : A) → Eq {A} x y → Eq {A} y x
sym2 x y refl = refl
