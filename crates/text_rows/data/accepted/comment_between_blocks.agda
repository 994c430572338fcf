postulate
  A : Set
{- a
comment -}
postulate B : Set
