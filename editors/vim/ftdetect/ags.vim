" Sources by their suffix; certificates by their suffix and their first line, since other files end in .cert too.
autocmd BufNewFile,BufRead *.lem setfiletype lemap
autocmd BufRead *.cert if getline(1) =~# '^[ \t]*AGSCERT\>' | setfiletype agscert | endif
