postulate
  A : f R.f
