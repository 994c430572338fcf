data Empty : Set where
