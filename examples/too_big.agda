-- A record with a field of type Set is no Set: write Set1 after the colon.
record Pointed : Set where
  field
    Carrier : Set
    point   : Carrier
