" Made by tools/editor-files from tools/words.txt.
autocmd BufNewFile,BufRead *.xc setfiletype xc
