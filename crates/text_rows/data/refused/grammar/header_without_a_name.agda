module where
 x
y