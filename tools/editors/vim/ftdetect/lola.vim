autocmd BufNewFile,BufRead *.lola set filetype=lola
