" Files of SR. Made by bench/editors.
autocmd BufRead,BufNewFile *.sr setfiletype sr
