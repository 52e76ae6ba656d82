" Syntax of Cedar policies: each token has the class that cedar-lsp gives it. A later line goes before an earlier one.
if exists('b:current_syntax')
  finish
endif
let s:cpo = &cpoptions
set cpoptions&vim
syntax case match

" Words. Blanks and comments may be between a name and the sign after it.
let s:gap = '\%(\_s\|\/\/[^\r\n]*\)*'
let s:reserved = '\%(true\|false\|if\|then\|else\|in\|is\|like\|has\)'
let s:other = '\%(permit\|forbid\|when\|unless\|principal\|action\|resource\|context\)'
let s:name = s:reserved . '\@!\h\w*\|' . s:reserved . '\w\+'
function! s:Name(group, after, more) abort
  execute 'syntax match' a:group '"\%(' . s:name . '\)' . a:after . '"' a:more
endfunction

syntax match cedarWord "\h\w*"
execute 'syntax match cedarFunction "\%(' . s:other . '\w\@!\)\@!\%(' . s:name . '\)\ze' . s:gap . '("'
syntax match cedarKeyword "\%(permit\|forbid\|when\|unless\|if\|then\|else\|in\|like\)\w\@!"
syntax match cedarBoolean "\%(true\|false\)\w\@!"
syntax match cedarVariable "\%(principal\|action\|resource\|context\)\w\@!"
call s:Name('cedarNamespace', '\ze' . s:gap . '::', '')
call s:Name('cedarType', '\ze' . s:gap . '::' . s:gap . '\"', '')
call s:Name('cedarAttribute', '\ze' . s:gap . '::\@!', '')

" What follows a dot, `has`, `is`, `::` and `@`.
syntax match cedarDot "\." nextgroup=cedarOfDot,cedarCall,cedarDotComment skipwhite skipempty
syntax match cedarDotComment "//[^\r\n]*" contained nextgroup=cedarOfDot,cedarCall,cedarDotComment skipwhite skipempty
call s:Name('cedarOfDot', '', 'contained')
call s:Name('cedarCall', '\ze' . s:gap . '(', 'contained')
syntax match cedarHas "has\w\@!" nextgroup=cedarOfHas,cedarHasComment skipwhite skipempty
syntax match cedarHasComment "//[^\r\n]*" contained nextgroup=cedarOfHas,cedarHasComment skipwhite skipempty
call s:Name('cedarOfHas', '', 'contained')
syntax match cedarPath "::\|is\w\@!" contains=cedarIs nextgroup=@cedarOfPath skipwhite skipempty
syntax match cedarIs "is" contained
syntax match cedarPathComment "//[^\r\n]*" contained nextgroup=@cedarOfPath skipwhite skipempty
call s:Name('cedarPathType', '', 'contained')
call s:Name('cedarPathFunction', '\ze' . s:gap . '(', 'contained')
call s:Name('cedarPathNamespace', '\ze' . s:gap . '::', 'contained')
call s:Name('cedarPathEntity', '\ze' . s:gap . '::' . s:gap . '\"', 'contained')
call s:Name('cedarPathKey', '\ze' . s:gap . '::\@!', 'contained')
syntax cluster cedarOfPath contains=cedarPathType,cedarPathFunction,cedarPathNamespace,cedarPathEntity,cedarPathKey,cedarPathComment
syntax match cedarAt "@" nextgroup=cedarAnnotation,cedarAtComment skipwhite skipempty
syntax match cedarAtComment "//[^\r\n]*" contained nextgroup=cedarAnnotation,cedarAtComment skipwhite skipempty
syntax match cedarAnnotation "\h\w*" contained

" Signs, numbers, slots, strings and comments.
syntax match cedarOperator "==\|!=\|<=\|>=\|[-<>+*/%!]\|&&\|||"
syntax match cedarNumber "\d\+"
syntax match cedarSlot "?\%(principal\|resource\)"
syntax region cedarString start=+"+ skip=+\\[^\n]+ end=+"+ contains=cedarEscape
syntax match cedarEscape "\\\%(u{\x\+}\|x\x\x\|[^\n]\)" contained
syntax match cedarComment "//[^\r\n]*" contains=cedarTodo,@Spell
syntax keyword cedarTodo TODO FIXME XXX contained
syntax sync minlines=200

highlight default link cedarKeyword Keyword
highlight default link cedarHas cedarKeyword
highlight default link cedarIs cedarKeyword
highlight default link cedarBoolean Boolean
highlight default link cedarVariable Identifier
highlight default link cedarSlot Special
highlight default link cedarAnnotation PreProc
highlight default link cedarAt cedarAnnotation
highlight default link cedarNamespace Include
highlight default link cedarPathNamespace cedarNamespace
highlight default link cedarType Type
highlight default link cedarPathType cedarType
highlight default link cedarPathEntity cedarType
highlight default link cedarFunction Function
highlight default link cedarPathFunction cedarFunction
highlight default link cedarMethod Function
highlight default link cedarCall cedarMethod
highlight default link cedarAttribute Normal
highlight default link cedarOfDot cedarAttribute
highlight default link cedarOfHas cedarAttribute
highlight default link cedarPathKey cedarAttribute
highlight default link cedarOperator Operator
highlight default link cedarNumber Number
highlight default link cedarString String
highlight default link cedarEscape SpecialChar
highlight default link cedarComment Comment
highlight default link cedarDotComment cedarComment
highlight default link cedarHasComment cedarComment
highlight default link cedarPathComment cedarComment
highlight default link cedarAtComment cedarComment
highlight default link cedarTodo Todo

delfunction s:Name
let b:current_syntax = 'cedar'
let &cpoptions = s:cpo
unlet s:cpo
