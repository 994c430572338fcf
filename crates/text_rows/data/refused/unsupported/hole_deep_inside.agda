postulate
  A : Set
  B C : A → (x : Set) → f Set (g ?) _
  D : λ x → x
