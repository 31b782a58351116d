" Proof outlines, and programs whose outline is to be inferred.
autocmd BufNewFile,BufRead *.outline setfiletype outline
autocmd BufNewFile,BufRead *.program if getline(1) =~# '^#' | setfiletype outline | endif
