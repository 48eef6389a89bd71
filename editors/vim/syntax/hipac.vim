" Scripts of hipac as text. A free word, as `count`, is coloured only where the notation gives it a meaning.
if exists('b:current_syntax')
  finish
endif

syntax case match
syntax iskeyword a-z,A-Z,48-57,_
syntax sync fromstart

" ---- reserved words

syntax keyword hipacControl on if do where as set else otherwise then until each for with sub
syntax keyword hipacLogical and or not
syntax keyword hipacBoolean true false
syntax keyword hipacSubject new old event
syntax keyword hipacProperty key
syntax keyword hipacMode immediate deferred separate dependent exclusive
syntax keyword hipacStatement create update delete signal emit abort veto install enable disable remove fire

" ---- names, numbers and symbols

syntax match hipacName "\<\a\w*\>"
syntax match hipacMember "\.\_s*\zs\%(key\>\)\@!\a\w*\>"
syntax match hipacQuoted "`\a\w*`"
syntax match hipacNumber "\<\d\+\>"
syntax match hipacWrong "\<0\d\+\>"
syntax match hipacOperator "!=\|<=\|>=\|[-=<>+*/%]"

" ---- free words

syntax match hipacDeclaration "\<\%(version\|depth\|clock\)\>\ze\_s\+\d"
syntax match hipacDeclaration "\<class\>\ze\_s\+`\=\a\w*`\=\_s*{"
syntax match hipacDeclaration "\%(\<rule\_s\+\)\@<!\<rule\>\ze\_s\+`\=\a\w*`\=\_s\+\%(closed\_s\+\)\=on\>"
syntax match hipacDeclaration "\<transaction\>\ze\_s*{"
syntax match hipacDeclaration "\%^\_s*\zsshow\>\ze\_s*\%$"
syntax match hipacMode "\%(\<rule\_s\+`\=\a\w*`\=\_s\+\)\@<=closed\>\ze\_s\+on\>"
syntax match hipacQuery "\%(\<if\_s\+\)\@<=\%(some\|no\)\>\ze\_s\+[`[:alpha:]]"
syntax match hipacQuery "\<let\>\ze\_s\+`\=\a\w*`\=\_s*="
syntax match hipacAggregate
      \ "\%(\<let\_s\+`\=\a\w*`\=\_s*=\_s*\)\@<=\%(count\|sum\|least\|greatest\|next\)\>\ze\_s\+[-`([:alnum:]\"]"
syntax match hipacAggregate "\%(\.\_s*\)\@<!\<over\>\ze\_s\+`\=\a\w*`\=\_s\+[`[:alpha:]]"
syntax match hipacEvent "\<\%(moment\|every\)\>\ze\_s\+\d"
syntax match hipacEvent "\%(\<every\_s\+\d\+\_s\+\)\@<=from\>"
syntax match hipacEvent "\<closure\>\ze\_s*("
syntax match hipacEvent "\%(\%(\<on\|\<or\|\<then\|\<until\)\_s\+\|(\_s*\)\@<=commit\>"
syntax match hipacProperty "\%(\<event\_s*\%(\[\_s*\d\+\_s*\]\_s*\)\=\.\_s*\)\@<=\%(time\|arg\|count\)\>"
syntax match hipacKind "\%(:\_s*\)\@<=\%(int\|bool\|text\)\>"
syntax match hipacSubject "\%(\.\_s*\|\<set\_s\+\|,\_s*\)\@<!\<now\>\%(\_s*[.:({]\|\_s\+\%(where\|as\)\>\)\@!"

" ---- texts and comments

syntax match hipacWrongEscape "\\." contained
syntax match hipacEscape +\\\%(["\\/bfnrt]\|u\x\{4}\)+ contained
syntax region hipacText start=+"+ skip=+\\.+ end=+"+ end=+$+ oneline contains=hipacEscape,hipacWrongEscape
syntax keyword hipacTodo TODO FIXME XXX contained
syntax match hipacComment "#.*$" contains=hipacTodo,@Spell

highlight default link hipacControl Conditional
highlight default link hipacLogical Operator
highlight default link hipacBoolean Boolean
highlight default link hipacSubject Special
highlight default link hipacProperty Special
highlight default link hipacMode StorageClass
highlight default link hipacStatement Statement
highlight default link hipacMember Normal
highlight default link hipacQuoted Identifier
highlight default link hipacNumber Number
highlight default link hipacWrong Error
highlight default link hipacOperator Operator
highlight default link hipacDeclaration Keyword
highlight default link hipacQuery Conditional
highlight default link hipacAggregate Function
highlight default link hipacEvent Type
highlight default link hipacKind Type
highlight default link hipacWrongEscape Error
highlight default link hipacEscape SpecialChar
highlight default link hipacText String
highlight default link hipacTodo Todo
highlight default link hipacComment Comment

let b:current_syntax = 'hipac'
