data D {A : Set} : Set where
