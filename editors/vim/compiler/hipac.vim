" `:make` checks the script in the buffer. $HIPAC_TOOLS names the tools where Vim doesn't run at the repository's top.
if exists('current_compiler')
  finish
endif
let current_compiler = 'hipac'

let s:tools = empty($HIPAC_TOOLS) ? './hipac-tools' : $HIPAC_TOOLS
execute 'CompilerSet makeprg=' . escape(s:tools . ' check %:S', ' ')
CompilerSet errorformat=%f:%l:%c:\ %t%*[^:]:\ %m,%f:%l:%c:\ %m,%-G%.%#
