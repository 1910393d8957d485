" Settings for Pascal-FC.
if exists("b:did_ftplugin")
  finish
endif
let b:did_ftplugin = 1
setlocal comments=sr:(*,mb:*,ex:*),s:{,m:\ ,e:}
setlocal commentstring={\ %s\ }
setlocal expandtab shiftwidth=2 softtabstop=2
compiler pfc
let b:undo_ftplugin = "setlocal comments< commentstring< expandtab< shiftwidth< softtabstop< errorformat< makeprg<"
