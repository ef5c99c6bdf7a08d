" :make checks a file by `tecol -c`. A hint is of type I, what is not checked of type W, and a fault of type E.
if exists('current_compiler')
  finish
endif
let current_compiler = 'tecol'
let s:cpo = &cpo
set cpo&vim
if get(b:, 'teco_bytes', 0)
  CompilerSet makeprg=tecol\ -c\ -r\ %:S
else
  CompilerSet makeprg=tecol\ -c\ %:S
endif
CompilerSet errorformat=%W%f:%l:%c:\ hint:\ not\ checked:\ %m,%I%f:%l:%c:\ hint:\ %m,%E%f:%l:%c:\ %m
let &cpo = s:cpo
unlet s:cpo
