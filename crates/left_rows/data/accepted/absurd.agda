data Nat : Set where
  zero : Nat
  suc : Nat → Nat
data Eq {A : Set} (x : A) : A → Set where
  refl : Eq {A} x x
data Fin : Nat → Set where
  fzero : {n : Nat} → Fin (suc n)
  fsuc : {n : Nat} → Fin n → Fin (suc n)
data Empty : Set where
data At : Empty → Set where
  at : {x : Empty} → At x
f : Empty → Nat
f ()
g : (n : Nat) → Fin zero → Nat
g n ()
h : (n : Nat) → Eq {Nat} zero (suc n) → Nat
h n ()
i : (n : Nat) → Eq {Nat} n (suc n) → Nat
i n ()
j : Fin (suc zero) → Nat
j (fsuc ())
k : (y : Empty) → At y → Nat
k y (at {()})
record Pair (A B : Set) : Set where
  constructor pair
  field
    fst : A
    snd : B
l : Empty → Nat → Nat
l () n
m : Pair Empty Nat → Nat
m (pair () n)
