" Writes to the file $OUT the name of the group at each byte of each line, for each file of the command line.
set encoding=utf-8 fileformats=unix hidden noswapfile synmaxcol=0
filetype on
syntax on

function s:Groups(line)
  return map(range(1, len(getline(a:line))), {_, column -> synIDattr(synID(a:line, column, 0), 'name')})
endfunction

let s:all = {}
for s:file in argv()
  execute 'edit' fnameescape(s:file)
  let s:all[fnamemodify(s:file, ':p')] = map(range(1, line('$')), {_, line -> s:Groups(line)})
endfor
call writefile([json_encode(s:all)], $OUT)
quitall!
