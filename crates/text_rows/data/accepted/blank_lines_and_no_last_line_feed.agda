postulate

  A : Set
	
  x   :    A