" Comments, and :make, which shows the place where lolamon refuses the specification.

if exists("b:did_ftplugin")
  finish
endif
let b:did_ftplugin = 1

setlocal commentstring=//\ %s
setlocal comments=s1:/*,mb:*,ex:*/,://
compiler lolamon
let b:undo_ftplugin = "setlocal commentstring< comments< makeprg< errorformat<"
