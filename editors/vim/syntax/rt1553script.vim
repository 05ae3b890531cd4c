" Vim syntax of scripts of rt1553, docs/script.md: a line an event; what is no line of a script is an error.
" To install: copy the folders syntax and ftdetect into ~/.vim.
if exists('b:current_syntax')
  finish
endif
syntax case match

" of the matches that begin at one place the last one counts
syntax match rt1553Error   /^.\+$/
syntax match rt1553Comment /^#.*$/
syntax match rt1553Heading /^# \(Profile\|Plan\|Standard\): .*$/
syntax match rt1553Answer  /^#[>~+] .*$/
syntax match rt1553Reading /^#| .*$/
syntax match rt1553Word    /^[AB] [cd] \x\{4}\( [01]\)\?$/ contains=rt1553Bus,rt1553Digits
syntax match rt1553Gap     /^[AB] \(noise\|gap\)$/ contains=rt1553Bus
syntax match rt1553Slot    /^slot$/
syntax match rt1553Write   /^write \(0[1-9]\|[12]\d\|30\) \(0[1-9]\|[12]\d\|3[0-2]\) \x\{4}$/ contains=rt1553Digits
syntax match rt1553Set     /^\(vector\|bit\) \x\{4}$/ contains=rt1553Digits
syntax match rt1553Flag    /^flag \(service\|busy\|subsystem\|terminal\) [01]$/
" a line has at most 64 bytes
syntax match rt1553Error   /^\%(.*\%>64c.\)$/

syntax match rt1553Bus     /^[AB]/ contained
syntax match rt1553Digits  / \zs\x\{4}\( [01]\)\?$/ contained

highlight default link rt1553Error   Error
highlight default link rt1553Comment Comment
highlight default link rt1553Heading SpecialComment
highlight default link rt1553Answer  String
highlight default link rt1553Reading SpecialComment
highlight default link rt1553Word    Identifier
highlight default link rt1553Gap     Statement
highlight default link rt1553Slot    Statement
highlight default link rt1553Write   Function
highlight default link rt1553Set     Function
highlight default link rt1553Flag    Function
highlight default link rt1553Bus     Type
highlight default link rt1553Digits  Number

let b:current_syntax = 'rt1553script'
