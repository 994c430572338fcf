f g : λ x → x
