postulate
  A : Set0
  B : Set₁
  F : Set → Set1
