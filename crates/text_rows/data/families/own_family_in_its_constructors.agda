postulate
  F : (A : Set) → A → Set
  L : Set → Set
data Tree : Set where
  leaf : Tree
  node : L Tree → ((t : Tree) → F Tree t) → Tree
