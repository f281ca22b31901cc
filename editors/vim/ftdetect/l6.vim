" Decks of L6 have names that end in .deck
autocmd BufRead,BufNewFile *.deck setfiletype l6
