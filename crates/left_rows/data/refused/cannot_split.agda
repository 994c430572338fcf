data Nat : Set where
  zero : Nat
  suc : Nat → Nat
data Bool : Set where
  true false : Bool
record Counter : Set where
  coinductive
  constructor counter
  field
    now : Nat
postulate
  T : Set
f : Nat → Nat
f true = zero
f (suc true) = zero
f (true x) = zero
g : Set → Nat
g zero = zero
h : Counter → Nat
h (counter n) = n
i : (Nat → Nat) → Nat
i zero = zero
j : T → Nat
j zero = zero
k : (A : Set) → A → Nat
k A zero = zero
