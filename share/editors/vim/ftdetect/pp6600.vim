" Made by share/colours.
autocmd BufRead,BufNewFile *.pp set filetype=pp6600
