" scripts of rt1553, docs/script.md
autocmd BufNewFile,BufRead *.script setfiletype rt1553script
