" Made by tools/editor-files from tools/words.txt.
if exists("b:did_ftplugin")
  finish
endif
let b:did_ftplugin = 1
setlocal commentstring=//\ %s comments=s1:/*,mb:*,ex:*/,:// cindent
let b:undo_ftplugin = "setlocal commentstring< comments< cindent<"
