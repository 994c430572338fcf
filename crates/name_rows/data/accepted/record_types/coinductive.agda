record S : Set where
  coinductive
  field
    t : S
