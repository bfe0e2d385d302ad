autocmd BufRead,BufNewFile *.spl setfiletype spl
