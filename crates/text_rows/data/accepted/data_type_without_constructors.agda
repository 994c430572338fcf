data
  D : Set where