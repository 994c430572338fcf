-- A record has no indices: its type after the colon must be a sort.
data Nat : Set where
  zero : Nat
  suc  : Nat → Nat

record Vec (A : Set) : Nat → Set where
  field
    length : Nat
