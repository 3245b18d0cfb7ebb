au BufRead,BufNewFile *.lucy setfiletype lucy
