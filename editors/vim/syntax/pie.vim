" Vim syntax file. Language: pipelines of PIE (pie.pipeline, pie.roots). Its words are held against the lexer's by editors/check.
if exists('b:current_syntax')
  finish
endif

syntax case match
syntax match pieFunction /\<\a\w*\ze\s*(/
syntax match pieBuiltin /\<\%(join\|name\|parent\|to_text\|parse_int\|trim\|replace\|split\|lines\|join_text\|slice\|sha256\|len\|find\|contains\|starts\|ends\|is_null\|at\|range\|reverse\|sort\|flatten\|some\|get\|to_bytes\|from_bytes\|slice_bytes\|read_bytes\)\ze\s*(/
syntax keyword pieKeyword func val
syntax keyword pieConditional if else
syntax keyword pieRepeat for in
syntax keyword pieEffect require run read exists digest list write fail by hash mark
syntax keyword pieType unit bool int text path null empty
syntax keyword pieBoolean true false
syntax match pieNumber /\<\d\+\>/
syntax match pieOperator /->\|[<>=!]=\|&&\|||\|[-+*\/%<>=!?]/
syntax match pieEscape /\\["\\nt]/ contained
syntax region pieString start=/"/ skip=/\\./ end=/"/ oneline contains=pieEscape
syntax match pieComment /\/\/.*$/ contains=@Spell

highlight default link pieFunction Function
highlight default link pieBuiltin Identifier
highlight default link pieKeyword Keyword
highlight default link pieConditional Conditional
highlight default link pieRepeat Repeat
highlight default link pieEffect Statement
highlight default link pieType Type
highlight default link pieBoolean Boolean
highlight default link pieNumber Number
highlight default link pieOperator Operator
highlight default link pieEscape SpecialChar
highlight default link pieString String
highlight default link pieComment Comment

let b:current_syntax = 'pie'
