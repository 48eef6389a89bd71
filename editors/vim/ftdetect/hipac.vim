" A file NAME.rules is a script of hipac if its first word is `version`, or if it has none. Vim itself takes such files
" for rules of udev or others, and loads their settings first: so these are forgotten.
autocmd BufNewFile,BufRead *.rules call s:Detect()

function! s:Detect() abort
  for text in getline(1, '$')
    if text =~# '^\s*version\>'
      break
    elseif text !~# '^\s*\%(#.*\)\=$'
      return
    endif
  endfor
  unlet! b:did_ftplugin
  set filetype=hipac
endfunction
