postulate
   A : Set
