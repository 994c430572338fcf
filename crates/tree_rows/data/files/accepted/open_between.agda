f : A
open R
f = e