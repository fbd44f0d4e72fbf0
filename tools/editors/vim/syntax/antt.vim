" antt: definitions and proofs of Rattle.
if exists('b:current_syntax')
  finish
endif
syntax case match

" names have any letters but blanks, brackets and ; , .
syntax match anttNumber '\%(^\|[[:space:](){}\[\];,.]\)\@1<=\d\+\ze\%($\|[[:space:](){}\[\];,.]\)'
syntax match anttType '\%(^\|[[:space:](){}\[\];,.]\)\@1<=\%(ℕ\|\u[A-Za-z0-9_-]*\)\ze\%($\|[[:space:](){}\[\];,.]\)'
syntax match anttDefined '\%(^\s*\%(\%(pub\|abbrev\|unfoldable\|private\|hide\)\s\+\)*\)\@<=[^[:space:](){}\[\];,:|]\+\ze\s\+:\s'
syntax match anttKeyword '\%(^\|[[:space:](){}\[\];,.]\)\@1<=\%(use\|mod\|module\|as\|open\|pub\|abbrev\|unfoldable\|private\|hide\|infix[lr]\?\|let\|in\|where\|if\|then\|else\|elim\|split\|data\|record\|λ\)\ze\%($\|[[:space:](){}\[\];,.]\)'
syntax match anttTactic '\%(^\|[[:space:](){}\[\];,.]\)\@1<=\%(omega\|search\|grind\|cc\|rw\|simp\|assumption\|hlevel\|arith\|refl\|subst\|absurd\|exact\|rewrite\)\ze\%($\|[[:space:](){}\[\];,.]\)'
syntax match anttConstant '\%(^\|[[:space:](){}\[\];,.]\)\@1<=\%(true\|false\|zero\|suc\|None\|Some\|inl\|inr\|tt\)\ze\%($\|[[:space:](){}\[\];,.]\)'
syntax match anttHole '\%(^\|[[:space:](){}\[\];,.]\)\@1<=?\ze\%($\|[[:space:](){}\[\];,.]\)'
syntax match anttOperator '[→↦≡≤<×⊎∷∙=|]\|++'
syntax region anttString start='"' end='"' oneline
syntax match anttComment '--\%(\s\|$\|-\).*$\|--$' contains=anttTodo,@Spell
syntax keyword anttTodo TODO FIXME contained

highlight default link anttNumber Number
highlight default link anttType Type
highlight default link anttDefined Function
highlight default link anttKeyword Keyword
highlight default link anttTactic Special
highlight default link anttConstant Constant
highlight default link anttHole Error
highlight default link anttOperator Operator
highlight default link anttString String
highlight default link anttComment Comment
highlight default link anttTodo Todo
let b:current_syntax = 'antt'
