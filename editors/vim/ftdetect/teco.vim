" Command strings of TECO: *.teco and scripts of teco are sources, *.tec are bytes.
autocmd BufNewFile,BufRead *.teco setfiletype teco
autocmd BufNewFile,BufRead *.tec let b:teco_bytes = 1 | setfiletype teco
autocmd BufNewFile,BufRead * if !did_filetype() && getline(1) =~# '^#!.*\<teco\>' | setfiletype teco | endif
