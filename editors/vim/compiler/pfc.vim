" :make runs the text, and :copen shows its refusal, its fault, or where each process stands.
if exists("current_compiler")
  finish
endif
let current_compiler = "pfc"
" pfcwalk names no file in what it writes, so the first line of this output does.
CompilerSet makeprg=echo\ FILE:\ %:S;\ pfcwalk\ %:S
CompilerSet errorformat=%+PFILE:\ %f,
      \--\ refused\ %n\ at\ line\ %l\\,\ column\ %c:\ %m,
      \--\ fault\ %n:\ %m\ at\ line\ %l,
      \process\ %m\ at\ line\ %l,
      \%-G%.%#
