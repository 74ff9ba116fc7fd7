" Colours for specifications of lolamon, by docs/language.md.

if exists("b:current_syntax")
  finish
endif

syntax case match
syntax sync fromstart

syntax match lolaOperator /:=\|&&\|||\|[=!<>]=\|[-+*\/%!<>]/
syntax match lolaInteger /\<\d\+\>/
syntax match lolaQuantity /\<\d\+\%(\.\d\+\)\?\%(ns\|us\|ms\|s\|min\|h\|d\|mHz\|Hz\|kHz\|MHz\)\>/
syntax match lolaError /\<\d\+\.\d\+\>\|\<\d\+\%(\.\d\+\)\?\%(\%(ns\|us\|ms\|s\|min\|h\|d\|mHz\|Hz\|kHz\|MHz\)\>\)\@!\h\w*/

syntax keyword lolaDeclaration input output constant trigger
syntax keyword lolaClause spawn eval close with when
syntax keyword lolaConditional if then else
syntax keyword lolaBoolean true false
syntax keyword lolaKind Bool Int8 Int16 Int32 Int64 UInt8 UInt16 UInt32 UInt64 String

syntax match lolaAccess /\%(\.\_s*\)\@<=\<\%(offset\|hold\|get\|last\|aggregate\|defaults\)\>/
syntax match lolaArgument /\%(\.\_s*\h\w*\_s*(\_s*\)\@<=\<\%(by\|or\|over\|over_exactly\|to\)\>\%(\_s*:\)\@=/
syntax match lolaArgument /\%(\<\d[0-9.]*\a\+\_s*,\_s*\)\@<=\<using\>\%(\_s*:\)\@=/
syntax match lolaAggregation /\%(\<using\_s*:\_s*\)\@<=\<\%(count\|sum\|min\|max\|avg\|forall\|exists\)\>/
syntax match lolaPacing /@/
syntax match lolaPacing /\%(@\_s*\)\@<=\<\%(Global\|Local\)\>/

syntax region lolaText start=/"/ skip=/\\./ end=/"/ oneline contains=lolaEscape,lolaWrongEscape
syntax match lolaWrongEscape /\\./ contained
syntax match lolaEscape /\\["\\nrt]/ contained
syntax region lolaComment start=/\/\// end=/$/ oneline contains=lolaTodo,@Spell
syntax region lolaComment start=/\/\*/ end=/\*\// contains=lolaTodo,@Spell
syntax keyword lolaTodo TODO FIXME XXX contained

highlight default link lolaOperator Operator
highlight default link lolaInteger Number
highlight default link lolaQuantity Float
highlight default link lolaError Error
highlight default link lolaDeclaration Keyword
highlight default link lolaClause Statement
highlight default link lolaConditional Conditional
highlight default link lolaBoolean Boolean
highlight default link lolaKind Type
highlight default link lolaAccess Function
highlight default link lolaArgument Label
highlight default link lolaAggregation Constant
highlight default link lolaPacing PreProc
highlight default link lolaText String
highlight default link lolaEscape SpecialChar
highlight default link lolaWrongEscape Error
highlight default link lolaComment Comment
highlight default link lolaTodo Todo

let b:current_syntax = "lola"
