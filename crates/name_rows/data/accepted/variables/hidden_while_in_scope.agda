postulate A : Set
postulate x : λ y → λ z → λ y → y z
