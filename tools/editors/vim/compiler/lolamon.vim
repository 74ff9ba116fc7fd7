" :make gives the specification to lolamon-where --check.

if exists("current_compiler")
  finish
endif
let current_compiler = "lolamon"

CompilerSet makeprg=lolamon-where\ --check\ --\ %:S
CompilerSet errorformat=%f:%l:%c:\ %m,%-G%.%#
