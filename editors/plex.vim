" Vim syntax file for PLEX: exchange texts, signal files, tables of periodic signals and
" filters. tools/maintain/highlighting makes it. Put it into ~/.vim/syntax, and into
" ~/.vim/ftdetect/plex.vim the line
"     autocmd BufRead,BufNewFile *.plex setfiletype plex
if exists("b:current_syntax")
  finish
endif
syntax case match

syntax match plexOther /[^A-Z0-9;,()=+*\/<> \t\r!-]/
syntax match plexName /\v[A-Z][A-Z0-9]*/
syntax match plexLongName /\v[A-Z][A-Z0-9]{31,}/
syntax match plexNumber /\v[0-9]+/
syntax match plexLongNumber /\v[0-9]{11,}/
syntax match plexLabel /\v^\s*\zs[A-Z][A-Z0-9]*\ze\)/
syntax keyword plexDeclaration SIGNAL SINGLE COMBINED BUFFERED DIRECT OUTSIDE DATA ANSWER VARIABLE
syntax keyword plexDeclaration TEMPORARY FILE FORLOPP FIELD WIDTH SIZE INIT CLEAR RECEIVE
syntax keyword plexPart BLOCK DECLARE SURVEY PROGRAM END ENTER
syntax keyword plexChoice IF THEN ELSE FI CASE IS WHEN DO OTHERWISE ESAC ON FROM UPTO NO FOR
syntax keyword plexChoice FIRST IN WHERE GOTO EXIT RETURN
syntax keyword plexAction SEND WITH REFERENCE NEW RETRIEVE TRANSFER SEIZE FREE
syntax keyword plexOperation AND OR MOD
syntax match plexComment /!.*$/

syntax region plexLine start=/\v^\s*(AFTER\s+[0-9]+\s+|EVERY\s+[0-9]+\s+FROM\s+|SHOW\s+(BLOCK|SIGNAL|FORLOPP|FROM|UPTO|FAULTS)(\s+|$)|SHOW$)/ end=/$/ keepend contains=plexLineWord,plexLineNumber
syntax keyword plexLineWord AFTER AS BLOCK EVERY FAULTS FORLOPP FROM NEW NONE SHOW SIGNAL TIMES UPTO contained
syntax match plexLineNumber /\v<[0-9]+>/ contained

highlight default link plexDeclaration StorageClass
highlight default link plexPart Structure
highlight default link plexChoice Conditional
highlight default link plexAction Statement
highlight default link plexOperation Operator
highlight default link plexName Identifier
highlight default link plexNumber Number
highlight default link plexLabel Label
highlight default link plexComment Comment
highlight default link plexLineWord Keyword
highlight default link plexLineNumber Number
highlight default link plexOther Error
highlight default link plexLongName Error
highlight default link plexLongNumber Error

let b:current_syntax = "plex"
