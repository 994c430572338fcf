data Nat : Set where
  zero : Nat
  suc : Nat → Nat
postulate
  plus : Nat → Nat → Nat
  Even : Nat → Set
  none : Even zero
  next : (n : Nat) → Even n → Even (suc (suc n))
  P : (n : Nat) → Even n → Set
  two : P (suc (suc zero)) (next zero none)
