-- Natural numbers, and what addition does.
data Nat : Set where
  zero : Nat
  suc  : Nat → Nat

-- The only proof of m = n is that both are the same number.
data Same : Nat → Nat → Set where
  same : (n : Nat) → Same n n

postulate
  plus      : Nat → Nat → Nat
  plus-zero : (n : Nat) → Same (plus zero n) n
  plus-suc  : (m n : Nat) → Same (plus (suc m) n) (suc (plus m n))
  induction : (P : Nat → Set) → P zero → ((n : Nat) → P n → P (suc n)) → (n : Nat) → P n

  Proved    : (n : Nat) → Same n n → Set
  two       : Proved (suc (suc zero)) (same (suc (suc zero)))
