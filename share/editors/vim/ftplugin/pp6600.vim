" :make assembles, and :copen shows what is wrong. Made by share/colours.
if exists('b:did_ftplugin')
  finish
endif
let b:did_ftplugin = 1
let s:assembler = get(g:, 'pp6600_assembler', 'pp6600-assemble')
let &l:makeprg = (executable(s:assembler) ? shellescape(s:assembler, 1) : s:assembler) . ' %:S'
setlocal errorformat=%f:%l:%c:\ %m,%-G%.%#
setlocal expandtab commentstring=*%s
let b:undo_ftplugin = 'setlocal makeprg< errorformat< expandtab< commentstring<'
