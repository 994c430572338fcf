data Nat : Set where
  zero : Nat
  suc : Nat → Nat
data Eq {A : Set} (x : A) : A → Set where
  refl : Eq {A} x x
f : Nat → (m : Nat) → Nat
f x y = x
f _ _ = zero
g : {A : Set} (x y : A) → Eq {A} x y → Nat
g x _ refl = zero
g _ y refl = zero
