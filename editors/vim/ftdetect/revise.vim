autocmd BufRead,BufNewFile *.rev setfiletype revise
