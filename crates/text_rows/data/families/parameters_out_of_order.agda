data D (A B : Set) : Set where
  mk : D B A
