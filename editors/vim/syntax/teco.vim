" Command strings of TECO, as sources, or as bytes where b:teco_bytes is set. docs/LANGUAGE.md says what a source is.
if exists('b:current_syntax')
  finish
endif
syntax case ignore
syntax sync fromstart

let s:bytes = get(b:, 'teco_bytes', 0)

" The control byte of a letter, or a caret and the letter.
function s:Control(letter)
  let caret = s:bytes ? '\^' : '\^[~=]\='
  return printf('\%%(%s%s\|\%%x%02x\)', caret, a:letter, char2nr(a:letter) - 64)
endfunction

let s:comment = '\%(^\|[ \t\r]\)\@1<=!!.*'
let s:escape = s:bytes ? '\%x1b' : '\%(\$\|\^\[\|\%x1b\)'
let s:typed = s:bytes ? '\%x01' : '\%(\^A\|\%x01\)'
let s:mark = s:bytes ? '!' : '\^\=!'
" What a source has between two tokens of one command: margins, line ends and comments.
let s:layout = s:bytes ? '' : '\%([ \t\r]*\%(' . s:comment . '\)\=\n[ \t\r]*\)*'

" Over the bytes of a caret, and over a comment, no end of a text is looked for.
function s:Skip(end)
  return s:bytes ? '' : ' skip="\%(' . a:end . '\)\@!\^.\|' . s:comment . '"'
endfunction

" Defines a text up to an end. Before a second text of the same command the end is only looked at.
"   Text GROUP NAMED START END FURTHER
function s:Text(group, named, start, end, further)
  let place = a:further =~# 'nextgroup' ? '\ze' : ''
  execute 'syntax region' a:group 'matchgroup=' . a:named 'start="' . a:start . '"' . s:Skip(a:end)
        \ 'matchgroup=' . (a:group ==# 'tecoTag' ? 'tecoTag' : 'tecoDelimiter') 'end="' . place . a:end . '"'
        \ 'contains=tecoComment' . (a:group ==# 'tecoTag' ? '' : ',tecoControl,tecoCaret') a:further
endfunction

" Defines a text between two of the same byte, whatever that is: a source may spell some in two ways.
"   Between GROUP FURTHER
function s:Between(group, further)
  if s:bytes
    let rows = [['\z(\_.\)', '\C\z1']]
  else
    let same = ['\^\=!', '\%(''\|\^`\)', '\^[~=]', s:escape]
    let rows = [['\z([^^$!''\x1b]\)', '\C\z1'], ['\^\z([^[!`~=]\)', '\^\z1']] + map(same, '[v:val, v:val]')
  endif
  for [start, end] in rows
    call s:Text(a:group, 'tecoDelimiter', start, end, 'contained ' . a:further)
  endfor
endfunction

" Defines a match: of those at one place the last one counts.
function s:Match(group, pattern, ...)
  execute 'syntax match' a:group '"' . escape(a:pattern, '"') . '"' join(a:000)
endfunction

call s:Match('tecoWrong', s:bytes ? '[^ \r\n]' : '\^.\|[^ \t\r\n]')
call s:Match('tecoModifier', '[:@]')
call s:Match('tecoNumber', '\d\+')
call s:Match('tecoValue', '[BZH.]\|' . s:Control('E') . '\|' . s:Control('N'))
call s:Match('tecoOperator', '[-+*/&#(),]')
call s:Match('tecoCommand', 'PW\|EX\|==\=\|[JCRLDKTVPYA\\]\|' . s:Control('T') . '\|' . s:Control('X'))
call s:Match('tecoCommand', '[QUXGM%[\]]\ze' . s:layout . '[A-Z0-9]', 'nextgroup=tecoRegister', 'skipnl', 'skipempty', 'skipwhite')
call s:Match('tecoRegister', '[A-Z0-9]', 'contained')
call s:Match('tecoLoop', '[<>;]')
call s:Match('tecoTest', '"[EFUNGLSTADRVW]\|[|'']' . (s:bytes ? '' : '\|\^`'))
call s:Match('tecoUndo', '[{}~]\ze' . s:escape . s:escape)
call s:Match('tecoEscape', s:escape)
call s:Match('tecoByte', s:bytes ? '\%(\^^\|\%x1e\)\_.' : '\%(\^^\|\^[~=]\^[~=]\|\%x1e\)' . s:layout . '\%(\^.\|.\)', 'contains=tecoComment')

" Commands with a text.
call s:Text('tecoText', 'tecoCommand', s:bytes ? '[INS_\t]' : '\^I\|[INS_\t]', s:escape, '')
call s:Text('tecoText', 'tecoCommand', s:Control('A'), s:typed, '')
call s:Text('tecoJump', 'tecoCommand', 'O', s:escape, '')
call s:Text('tecoTag', 'tecoTag', s:mark, s:mark, '')
call s:Match('tecoCommand', s:Control('U') . '\ze[A-Z0-9]', 'nextgroup=tecoSet')
call s:Text('tecoSet', 'tecoRegister', '[A-Z0-9]', s:escape, 'contained')
call s:Text('tecoOld', 'tecoCommand', 'FS', s:escape, 'nextgroup=tecoNew')
call s:Text('tecoNew', 'tecoDelimiter', s:escape, s:escape, 'contained')

" The same after @, with any delimiter.
call s:Match('tecoModifier', ':\{,2}@:\{,2}', 'nextgroup=tecoAtText,tecoAtJump,tecoAtSet,tecoAtOld')
call s:Match('tecoAtText', '[INS_]\|' . s:Control('A'), 'contained', 'nextgroup=tecoAnyText')
call s:Match('tecoAtJump', 'O', 'contained', 'nextgroup=tecoAnyJump')
call s:Match('tecoAtSet', s:Control('U') . '\ze[A-Z0-9]', 'contained', 'nextgroup=tecoAtRegister')
call s:Match('tecoAtRegister', '[A-Z0-9]', 'contained', 'nextgroup=tecoAnyText')
call s:Match('tecoAtOld', 'FS', 'contained', 'nextgroup=tecoAnyOld')
call s:Between('tecoAnyText', '')
call s:Between('tecoAnyJump', '')
call s:Between('tecoAnyOld', 'nextgroup=tecoAnyText')

if !s:bytes
  call s:Match('tecoCaret', '\^\%([^[]\|$\)', 'contained')
  call s:Match('tecoControl', '\^[$!~=.?`@A-Z\\\]^_]', 'contained')
  call s:Match('tecoLayout', '^[ \t\r]\+')
  call s:Match('tecoFiller', '\^[JM@]')
  call s:Match('tecoLayout', '[ \t\r]\+\ze\%(!!.*\)\=$')
  call s:Match('tecoComment', s:comment)
  call s:Match('tecoComment', '\%^#!.*')
endif

let s:links = #{Wrong: 'Error', Caret: 'Error', Modifier: 'PreProc', Number: 'Number', Value: 'Constant', Operator: 'Operator',
      \ Command: 'Statement', Register: 'Identifier', Loop: 'Repeat', Test: 'Conditional', Undo: 'Special', Escape: 'Special',
      \ Byte: 'Character', Text: 'String', Set: 'String', Old: 'String', New: 'String', AnyText: 'String', AnyOld: 'String',
      \ Jump: 'Label', AnyJump: 'Label', Tag: 'Label', Delimiter: 'Delimiter', Control: 'SpecialChar', AtText: 'Statement',
      \ AtJump: 'Statement', AtSet: 'Statement', AtOld: 'Statement', AtRegister: 'Identifier', Comment: 'Comment'}
for [s:name, s:link] in items(s:links)
  execute 'highlight default link teco' . s:name s:link
endfor
delfunction s:Control
delfunction s:Skip
delfunction s:Text
delfunction s:Between
delfunction s:Match
let b:current_syntax = 'teco'
