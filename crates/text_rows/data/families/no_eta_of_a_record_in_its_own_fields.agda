record Deep : Set where
  constructor deep
  inductive
  field
    below : Deep
open Deep
postulate
  S : Deep → Set
  m : (d : Deep) → S d
  U : (d : Deep) → S (deep (below d)) → Set
  w : (d : Deep) → U d (m d)
