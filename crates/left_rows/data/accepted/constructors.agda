data Nat : Set where
  zero : Nat
  suc : Nat → Nat
data Fin : Nat → Set where
  fzero : {n : Nat} → Fin (suc n)
  fsuc : {n : Nat} → Fin n → Fin (suc n)
data D : Set where
  mk : Nat → {n : Nat} → D
f : D → Nat
f (mk a) = a
f (mk a {zero}) = a
f (mk _ {n = suc b}) = b
g : {n : Nat} → Fin n → Nat
g fzero = zero
g {n} fzero = zero
g {suc n} (fzero {m}) = zero
g (fsuc (fsuc i)) = zero
