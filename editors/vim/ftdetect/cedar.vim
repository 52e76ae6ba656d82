autocmd BufNewFile,BufRead *.cedar setfiletype cedar
