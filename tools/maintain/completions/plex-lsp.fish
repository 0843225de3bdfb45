# Made by tools/maintain/completion from its table of words.
complete -c plex-lsp -l stdio -d 'talks over the standard input and output'
complete -c plex-lsp -l help -d 'writes this text'
complete -c plex-lsp -l version -d 'writes the version'
