" Vim compiler file for PLEX: behind `:compiler plex` the command `:make` has plex look at the text
" that is edited, and jumps to its fault. What plex is to do stands in g:plex_words, as
"     let g:plex_words = 'run % signals.txt'
" and is `analyse` without it. Put this file into ~/.vim/compiler as plex.vim.
if exists("current_compiler")
  finish
endif
let current_compiler = "plex"

if exists(":CompilerSet") != 2
  command -nargs=* CompilerSet setlocal <args>
endif

execute 'CompilerSet makeprg=plex\ ' . escape(get(g:, 'plex_words', 'analyse %:S'), ' |"\')
" A fault of a line, other lines of plex, a fault of a whole file; what plex writes beside them is
" left out.
CompilerSet errorformat=%f:%l:\ %m,%-Gusage:%.%#,%+Gplex:\ %m,%f:\ %m,%-G%.%#
