" Route filters as ncroute reads them: a part of BIRD's filter language.
if exists('b:current_syntax')
  finish
endif

syn keyword ncrouteStatement filter if then else case accept reject
syn keyword ncrouteTruth true false
syn keyword ncrouteRoute net rip_metric defined
" Words of BIRD that are refused by name (P10).
syn keyword ncrouteLeftOut function define print printn return include string pair quad ec lc bgppath bgpmask clist eclist lclist set from proto
syn keyword ncrouteLeftOut preference source

" A match and no keyword, since `ip` is a part of a prefix behind a dot, and a keyword would come before that match.
syn match ncrouteKind '\<\%(int\|bool\|ip\|prefix\)\>'
syn match ncrouteNumber '\<\d\+'
syn match ncrouteNumber '\<0x\x\+'
syn match ncrouteNet '\<\d\+\.\d\+\.\d\+\.\d\+\%(/\d\+\)\?'
syn match ncroutePart '\.\@1<=\%(ip\|len\|mask\)\>'
syn match ncrouteSign '&&\|||\|!=\|!\~\|<=\|>=\|[=<>~!+*/-]'

syn match ncrouteComment '#.*$'
syn region ncrouteComment start='/\*' end='\*/'
syn region ncrouteText start='"' end='"' oneline

hi def link ncrouteStatement Statement
hi def link ncrouteKind Type
hi def link ncrouteTruth Boolean
hi def link ncrouteRoute Identifier
hi def link ncrouteLeftOut Error
hi def link ncrouteNumber Number
hi def link ncrouteNet Constant
hi def link ncroutePart Function
hi def link ncrouteSign Operator
hi def link ncrouteComment Comment
hi def link ncrouteText String

let b:current_syntax = 'ncroute'
