autocmd BufRead,BufNewFile *.task,*.prog set filetype=safemerge
