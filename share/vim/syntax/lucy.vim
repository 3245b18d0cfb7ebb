" Syntax of lucy programs.
if exists("b:current_syntax")
  finish
endif
syn case match
syn keyword lucyHead let node where rec and at
syn keyword lucyClock when whenot merge fby buffer host
syn keyword lucyLogic if then else not
syn keyword lucyTruth true false
syn keyword lucyType int bool
syn match lucyNumber "\<\d\+\>"
" A word stands behind when, whenot, merge, :: and at, and nowhere else.
syn match lucyWord "\%(::\|\<\%(when\|whenot\|merge\|at\)\>\)\@8<=\_s*\zs\%([01]\%({\d\+}\)\?\)*(\%([01]\%({\d\+}\)\?\)\+)"
syn region lucyComment start="(\*" end="\*)"
hi def link lucyHead Keyword
hi def link lucyClock Statement
hi def link lucyLogic Conditional
hi def link lucyTruth Boolean
hi def link lucyType Type
hi def link lucyNumber Number
hi def link lucyWord Special
hi def link lucyComment Comment
setlocal commentstring=(*\ %s\ *)
let b:current_syntax = "lucy"
