f : A
open R public
f = e