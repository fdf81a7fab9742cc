" Vim compiler file for xcsim: `:compiler xcsim`, and then `:make` checks the file at hand and goes to what it refuses.
" Made by tools/editor-files from tools/words.txt.
if exists("current_compiler")
  finish
endif
let current_compiler = "xcsim"
if !exists("g:xcsim_folder")
  let g:xcsim_folder = fnamemodify(resolve(expand("<sfile>:p")), ":h:h:h:h:h")
endif
let s:command = shellescape(g:xcsim_folder . '/xcsim') . ' check %:S 2>&1 \| ' . shellescape(g:xcsim_folder . '/tools/explain')
execute 'CompilerSet makeprg=' . escape(s:command, ' \|"')
CompilerSet errorformat=%f:%l:%c:\ error:\ %m,%f:\ error:\ %m,%f:%l:%c:\ rule\ %n,%f:%l:\ rule\ %n,%-G%.%#
