" Specifications of cocktail: sections, lines, expressions and regular expressions.
if exists("b:current_syntax")
  finish
endif

syntax keyword cocktailSection REX LALR ELL AST AG PUMA BEG END
syntax keyword cocktailLine RULE STATE FAMILY TARGET TYPE NODE BUILD ATTR EQ ROUTINE MAIN BUDGET CLASS NONTERM GOAL COVER
syntax keyword cocktailPart TOKEN SKIP GO SYN INH IF LET WHEN COST EARLY EMIT TEXT NONE
syntax keyword cocktailReserved int bool text map if then else true false line col empty put get has size
syntax match cocktailNumber /\<\d\+\>/
syntax match cocktailSymbol /\$\d\+/
syntax match cocktailEscape contained /\\\(x\x\x\|.\)/
syntax region cocktailString start=/"/ skip=/\\./ end=/"/ oneline contains=cocktailEscape
syntax region cocktailClass start=/\[/ skip=/\\./ end=/\]/ oneline contains=cocktailEscape
syntax match cocktailComment /#.*$/

highlight default link cocktailSection Structure
highlight default link cocktailLine Statement
highlight default link cocktailPart Keyword
highlight default link cocktailReserved Type
highlight default link cocktailNumber Number
highlight default link cocktailSymbol Identifier
highlight default link cocktailEscape SpecialChar
highlight default link cocktailString String
highlight default link cocktailClass String
highlight default link cocktailComment Comment

let b:current_syntax = "cocktail"
