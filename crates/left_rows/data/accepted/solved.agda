data Nat : Set where
  zero : Nat
  suc : Nat → Nat
data Vec (A : Set) : Nat → Set where
  nil : Vec A zero
  cons : {n : Nat} → A → Vec A n → Vec A (suc n)
two : {n : Nat} → Vec Nat n → Nat
two (cons x (cons y zs)) = x
two {n} (cons x (cons y zs)) = n
two {n} (cons {m} x (cons {k} y nil)) = k
three : (n : Nat) → Vec Nat (suc n) → Vec Nat n → Nat
three n (cons {m} x xs) (cons {k} y ys) = m
