data D : Set1 where
  mk : (x y : (x y : (x y : (x y : (x y : (x y : (x y : (x y : (x y : (x y : (x y : (x y : (x y : (x y : (x y : (x y : (x y : (x y : (x y : (x y : (x y : (x y : (x y : Set) → Set) → Set) → Set) → Set) → Set) → Set) → Set) → Set) → Set) → Set) → Set) → Set) → Set) → Set) → Set) → Set) → Set) → Set) → Set) → Set) → Set) → Set) → D
