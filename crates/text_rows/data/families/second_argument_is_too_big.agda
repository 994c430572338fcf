data D (A : Set) : Set where
  one : A → D A
  two : A → Set → D A
