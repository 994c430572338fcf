record Fun : Set1 where
  constructor fun
  field
    app : Set → Set
open Fun
data D (A : Set) : Set where
  mk : A → D (app (fun (λ X → X)) A)
postulate
  A : Set
  P : D A → Set
  x : (a : A) → P (mk a)
