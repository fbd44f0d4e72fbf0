" Rattle: Rust, and clauses whose terms are antt's.
if exists('b:current_syntax')
  finish
endif
runtime! syntax/rust.vim
unlet! b:current_syntax
syntax include @rattleTerm syntax/antt.vim
syntax case match

syntax keyword rattleContract requires ensures invariant containedin=ALLBUT,@rattleText
syntax match rattleProve '\<\%(prove\|unreachable\)!'
" requires NAME { TERM } and ensures NAME { TERM } stand on lines of their own
syntax region rattleClause matchgroup=rattleContract start='^\s*\%(requires\|ensures\)\>' matchgroup=NONE
      \ end='$' contains=rattleBraces,rattleLabel
syntax match rattleLabel '\<\l\w*\>' contained
syntax region rattleBraces start='{' end='}' contained contains=rattleBraces,rattleValue,@rattleTerm
syntax keyword rattleValue result old now contained
syntax region rattleGhost matchgroup=rattleContract start='\<ghost\>' matchgroup=NONE end=';'
      \ contains=rattleBraces,rattleContract,@rattleTerm
syntax cluster rattleText contains=rustCommentLine,rustCommentLineDoc,rustCommentBlock,rustString,rattleBraces

highlight default link rattleContract PreProc
highlight default link rattleProve Macro
highlight default link rattleLabel Label
highlight default link rattleValue Identifier
let b:current_syntax = 'rattle'
