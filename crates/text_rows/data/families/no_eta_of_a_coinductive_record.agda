postulate
  A : Set
record Box : Set where
  coinductive
  constructor box
  field
    it : A
open Box
postulate
  S : Box → Set
  m : (b : Box) → S b
  U : (b : Box) → S (box (it b)) → Set
  w : (b : Box) → U b (m b)
