data Nat : Set where
  zero : Nat
  suc : Nat → Nat
data Vec (A : Set) : Nat → Set where
  nil : Vec A zero
  cons : {n : Nat} → A → Vec A n → Vec A (suc n)
plus : Nat → Nat → Nat
plus zero n = n
plus (suc m) n = suc (plus m n)
append : {A : Set} {m n : Nat} → Vec A m → Vec A n → Vec A (plus m n)
append nil ys = ys
append (cons x xs) ys = cons x (append xs ys)
