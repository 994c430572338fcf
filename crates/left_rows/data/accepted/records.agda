data Nat : Set where
  zero : Nat
  suc : Nat → Nat
data Vec (A : Set) : Nat → Set where
  nil : Vec A zero
  cons : {n : Nat} → A → Vec A n → Vec A (suc n)
record Pair (A B : Set) : Set where
  constructor pair
  field
    fst : A
    snd : B
record Sigma (A : Set) (B : A → Set) : Set where
  constructor sig
  field
    one : A
    two : B one
record Unit : Set where
  constructor unit
f : Pair Nat (Pair Nat Unit) → Nat
f (pair a (pair b unit)) = a
g : Sigma Nat (λ n → Vec Nat n) → Nat
g (sig n xs) = n
g (sig n (cons x xs)) = n
