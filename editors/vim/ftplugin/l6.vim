" Decks of L6: comments begin in column 1, bodies in column 8, and column 72 is the last one that counts
if exists('b:did_ftplugin')
  finish
endif
let b:did_ftplugin = 1
setlocal commentstring=*\ %s comments=b:* expandtab shiftwidth=7 softtabstop=7 nowrap
if exists('+colorcolumn')
  setlocal colorcolumn=73
endif
" :make says what is wrong with the deck
setlocal makeprg=l6\ check\ --name\ %:S\ <\ %:S errorformat=%f:%l:%c:\ %t%*[^:]:\ %m,%-G%.%#
let b:undo_ftplugin = 'setlocal commentstring< comments< expandtab< shiftwidth< softtabstop< wrap< makeprg< errorformat<'
if exists('+colorcolumn')
  let b:undo_ftplugin .= ' colorcolumn<'
endif
