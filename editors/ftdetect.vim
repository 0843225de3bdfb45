" The type of PLEX files for Vim: texts named *.plex, and signal files, tables of periodic signals and
" filters by their first line, whatever they are called. Put it into ~/.vim/ftdetect as plex.vim.
autocmd BufNewFile,BufRead *.plex set filetype=plex
autocmd BufRead * call s:LookForLines()

" A line that only such a file has, behind blank lines and comments.
let s:line = '\v^\s*(AFTER\s+\d+\s+\S+\s+\S+|EVERY\s+\d+\s+FROM\s+\d+|SHOW(\s+(BLOCK|SIGNAL|FORLOPP|FROM|UPTO|FAULTS)>|\s*$))'

function s:LookForLines()
  if &filetype ==# '' || &filetype ==# 'text' || &filetype ==# 'conf'
    for line in getline(1, 50)
      if line !~# '\v^(!|\s*$)'
        if line =~# s:line
          set filetype=plex
        endif
        return
      endif
    endfor
  endif
endfunction
