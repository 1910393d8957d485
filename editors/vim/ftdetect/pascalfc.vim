" A text is Pascal-FC where its name ends in .pfc, or where it ends in .pas and uses a word of processes among its first lines.
augroup pascalfc
  autocmd!
  autocmd BufNewFile,BufRead *.pfc setfiletype pascalfc
  autocmd BufNewFile,BufRead *.pas
        \ if get(g:, 'pascalfc_everywhere', 0)
        \ || join(getline(1, 300), "\n") =~? '\<\(cobegin\|process\|monitor\|resource\|semaphore\|channel\)\>'
        \ | set filetype=pascalfc | endif
augroup END
