autocmd BufRead,BufNewFile *.sf setfiletype smallfoot
