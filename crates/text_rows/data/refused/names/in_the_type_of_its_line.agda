postulate
  A B : Set → A
