{-# BUILTIN x #-}
postulate A : Set