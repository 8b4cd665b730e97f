" Filters of ncroute. Vim itself takes the ending for another language, so this sets the type in place of it.
autocmd BufNewFile,BufRead *.filter set filetype=ncroute
