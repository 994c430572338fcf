data Nat : Set where
  zero : Nat
  suc : Nat → Nat
data Eq {A : Set} (x : A) : A → Set where
  refl : Eq {A} x x
same : {A : Set} (x : A) → Eq {A} x x → Nat
same x refl = zero
inside : (x y : Nat) → Eq {Nat} (suc x) (suc y) → Nat
inside x y refl = x
earlier : (x y : Nat) → Eq {Nat} (suc y) x → Nat
earlier x y refl = x
