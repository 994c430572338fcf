postulate a : b
postulate c : Set
