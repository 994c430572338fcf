module M where
postulate
  A : Set
