data Nat : Set where
  zero : Nat
  suc : Nat → Nat
data Vec (A : Set) : Nat → Set where
  nil : Vec A zero
  cons : {n : Nat} → A → Vec A n → Vec A (suc n)
data Fin : Nat → Set where
  fzero : {n : Nat} → Fin (suc n)
  fsuc : {n : Nat} → Fin n → Fin (suc n)
record Unit : Set where
  constructor unit
f : Nat → Nat
f ()
f (suc (suc ()))
g : Set → Nat
g ()
h : Unit → Nat
h ()
i : (n : Nat) → Vec Nat n → Nat
i n ()
j : (Nat → Nat) → Nat
j ()
k : Fin (suc zero) → Nat
k ()
