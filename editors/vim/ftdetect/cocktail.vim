" A file SPEC, or one that ends in .cocktail, is a specification.
autocmd BufRead,BufNewFile SPEC,*.cocktail setfiletype cocktail
