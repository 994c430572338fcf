postulate a : λ x → λ y → λ x → x
