" What editing a proof outline needs: comments, indentation, `=` and `:make` by the tool.
if exists('b:did_ftplugin')
  finish
endif
let b:did_ftplugin = 1

setlocal comments=:# commentstring=#\ %s
setlocal expandtab shiftwidth=2 softtabstop=2
setlocal iskeyword=@,48-57,_,'
setlocal formatprg=outline\ fmt\ -\ 2>/dev/null
setlocal makeprg=outline\ check\ %
setlocal errorformat=%f:%l:%c:\ %m,%f:%l:\ %m,%f:\ NOT\ JUDGED:\ %f:%l:%c:\ %m

let b:undo_ftplugin = 'setlocal comments< commentstring< expandtab< shiftwidth< softtabstop<'
      \ . ' iskeyword< formatprg< makeprg< errorformat<'
