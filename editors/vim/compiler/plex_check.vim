" Vim compiler file for plex-check: `:compiler plex_check`, then `:make` for the text alone, or
" `:make signals.txt` with its signal file. The faults come into the quickfix list.
" Put it into ~/.vim/compiler.
if exists("current_compiler")
  finish
endif
let current_compiler = "plex_check"

if exists(":CompilerSet") != 2
  command -nargs=* CompilerSet setlocal <args>
endif

CompilerSet makeprg=plex-check\ --short\ %:S\ $*
CompilerSet errorformat=%f:%l:%c:\ %m
