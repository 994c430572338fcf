postulate
  x : λ
{-