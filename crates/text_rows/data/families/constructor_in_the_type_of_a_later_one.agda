data D : Set1 where
  mk : D
  other : (Q : D → Set) → Q mk → D
