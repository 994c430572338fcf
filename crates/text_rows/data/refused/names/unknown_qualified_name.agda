postulate
  A : R.f
