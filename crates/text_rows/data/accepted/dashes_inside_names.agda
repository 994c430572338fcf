postulate
  A--b : Set
  x-> : A--b
