autocmd BufRead,BufNewFile *.palm setfiletype palm
