data D : Set where
  mk : Set
