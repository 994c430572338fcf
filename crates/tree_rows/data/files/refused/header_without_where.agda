module M
  x : A