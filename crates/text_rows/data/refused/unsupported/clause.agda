f x = _
