autocmd BufRead,BufNewFile *.hm setfiletype hermes
