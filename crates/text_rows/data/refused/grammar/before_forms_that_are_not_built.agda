postulate
  x : C
) _