" Settings for scripts of hipac.
if exists('b:did_ftplugin')
  finish
endif
let b:did_ftplugin = 1

setlocal comments=:# commentstring=#\ %s
" The settings of another type of file, which Vim may have loaded first, take `-` as part of a word.
setlocal iskeyword=a-z,A-Z,48-57,_
setlocal autoindent expandtab shiftwidth=2 softtabstop=2
compiler hipac

let b:undo_ftplugin = 'setlocal comments< commentstring< iskeyword< autoindent< expandtab< shiftwidth< softtabstop<'
      \ . ' makeprg< errorformat<'
