(f
  a) → {x :
 B} → C
