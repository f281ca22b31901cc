" Cards of L6
if exists('b:current_syntax')
  finish
endif
syntax case ignore
syntax match l6Comment /^\*.*/
syntax match l6Separator /^\$\(INPUT\|COMMANDS\)\s*$/
syntax match l6Continuation /^+/
syntax match l6Label /^\a\w\{0,5}\>/
syntax keyword l6Word IF NOT IFALL IFANY IFNONE IFNALL THEN
syntax keyword l6Exit DONE FAIL
syntax match l6Group /([^()]*)/ contains=l6Octal,l6Number,l6Operation,l6Text
" the second element of a group, or its only one, is the operation
syntax match l6Operation /\%([(][^(),]*,\)\@<=\s*[A-Z0-9]\{1,2}[OH]\?\ze\s*[,)]/ contained
syntax match l6Operation /(\@<=\s*PL\s*)\@=/ contained
syntax match l6Number /\<\d\+\>/ contained
syntax match l6Octal /\%(,\s*[A-Z0-9]\{1,2}O\s*,\s*\)\@<=[0-7]\+/ contained
syntax match l6Text /(\@<=[^(),]*\ze,\s*PH\s*)/ contained
" what stands past column 72 does not count
syntax match l6Ignored /\%>72v.\+/ containedin=ALL
highlight default link l6Comment Comment
highlight default link l6Separator PreProc
highlight default link l6Continuation Special
highlight default link l6Label Label
highlight default link l6Word Conditional
highlight default link l6Exit Statement
highlight default link l6Operation Operator
highlight default link l6Octal Number
highlight default link l6Number Number
highlight default link l6Text String
highlight default link l6Ignored NonText
let b:current_syntax = 'l6'
