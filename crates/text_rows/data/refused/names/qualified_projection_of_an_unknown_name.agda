postulate
  A : f .R.p
