" Writes to the file $OUT what :make reports of the file of the command line: line, column, type and text of each entry.
set encoding=utf-8 noswapfile
filetype on
compiler tecol
silent make!
call writefile([json_encode(map(getqflist(), {_, it -> [it.lnum, it.col, it.type, it.text, it.valid]}))], $OUT)
quitall!
