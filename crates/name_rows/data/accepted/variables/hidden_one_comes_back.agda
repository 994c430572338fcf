postulate b : λ x → λ y → (λ x → x) x
