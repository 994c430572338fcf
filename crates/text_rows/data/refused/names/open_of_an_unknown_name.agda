postulate
  A : Set
open
 R public
