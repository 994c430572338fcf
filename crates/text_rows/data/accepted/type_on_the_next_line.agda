postulate
  A :
    Set
