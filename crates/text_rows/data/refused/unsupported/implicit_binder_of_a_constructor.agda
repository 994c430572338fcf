data D : Set where
  mk : {x : D} → D
