record Pointed : Set1 where
  field
    Carrier : Set
    point : Carrier
open Pointed
postulate
  A : Set
  a : A
  P : Pointed → Set
  x : P (record { point = a ; Carrier = A })
  m : (p : Pointed) → P p
  U : (p : Pointed) → P (record { Carrier = Carrier p ; point = point p }) → Set
  w : (p : Pointed) → U p (m p)
  y : (p : Pointed) → Carrier p
