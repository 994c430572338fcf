record Box (A : Set) : Set where
  field
    it : A
open Box
data Unit : Set where
  unit : Unit
postulate
  P : Unit → Set
  x : P (unit .it)
