x : A
  B : C