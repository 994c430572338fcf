data Vec (A : Set) : Set → Set where
  nil cons : Vec A A
