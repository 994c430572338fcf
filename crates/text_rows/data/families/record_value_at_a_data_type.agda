data Unit : Set where
  unit : Unit
postulate
  P : Unit → Set
  x : P (record { })
