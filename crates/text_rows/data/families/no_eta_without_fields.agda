record Unit : Set where
  constructor unit
postulate
  S : Unit → Set
  m : (u : Unit) → S u
  U : (u : Unit) → S unit → Set
  w : (u : Unit) → U u (m u)
