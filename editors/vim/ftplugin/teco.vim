" Command strings of TECO: :make checks them.
if exists('b:did_ftplugin')
  finish
endif
let b:did_ftplugin = 1
compiler tecol
let b:undo_ftplugin = 'setlocal makeprg< errorformat<'
if !get(b:, 'teco_bytes', 0)
  setlocal comments=:!! commentstring=!!\ %s
  let b:undo_ftplugin .= ' comments< commentstring<'
endif
