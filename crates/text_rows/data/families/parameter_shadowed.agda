data D (A : Set) : Set1 where
  mk : (A : Set) → D A
