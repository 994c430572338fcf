module A.B where
postulate
  x : A