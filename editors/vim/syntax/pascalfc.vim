" Vim syntax file
" Language: Pascal-FC. The words are written by editors/make-words.
if exists("b:current_syntax")
  finish
endif
syntax case ignore
syntax keyword pascalfcReserved accept and array begin case channel cobegin coend const div do downto else end entry export for forever function guarded if mod monitor not null of or pri procedure process program record repeat replicate requeue resource select terminate then timeout to type until var when while
syntax keyword pascalfcType integer boolean char semaphore condition synchronous
syntax keyword pascalfcConstant true false maxint
syntax keyword pascalfcRoutine any abs sqr odd ord chr succ pred eof eoln empty clock random read readln write writeln initial wait signal delay resume sleep
syntax match pascalfcNumber "\<\d\+"
syntax region pascalfcString start="'" skip="''" end="'" oneline
syntax region pascalfcComment start="{" end="}" contains=@Spell
syntax region pascalfcComment start="(\*" end="\*)" contains=@Spell
syntax sync minlines=100
highlight default link pascalfcReserved Keyword
highlight default link pascalfcType Type
highlight default link pascalfcConstant Constant
highlight default link pascalfcRoutine Function
highlight default link pascalfcNumber Number
highlight default link pascalfcString String
highlight default link pascalfcComment Comment
let b:current_syntax = "pascalfc"
