data Nat : Set where
  zero : Nat
open Nat
