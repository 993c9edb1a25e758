" A file `.s` is a text of denovo where it declares a region, a lock, a phase or its version; other assembly stays what it is.
autocmd BufNewFile,BufRead *.s
      \ if search('^\s*\.\%(region\|lock\|phase\|version\)\>', 'nw') | set filetype=denovo | setlocal commentstring=#\ %s | endif
