f (c x) = (g x)
