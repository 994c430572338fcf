data Nat : Set where
  zero : Nat
  suc : Nat → Nat
data Vec (A : Set) : Nat → Set where
  nil : Vec A zero
  cons : (n : Nat) → A → Vec A n → Vec A (suc n)
plus : Nat → Nat → Nat
plus m n = n
append : (A : Set) (m n : Nat) → Vec A m → Vec A n → Vec A (plus m n)
append A .zero n nil ys = ys
append A .(suc m) n (cons m x xs) ys = ys
append A .zero n (cons m x xs) ys = ys
stays : Nat → Nat → Nat
stays x .x = x
