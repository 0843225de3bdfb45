# Made by tools/maintain/completion from its table of words.
complete -c plex-page -s o -r -F -d 'the page that is written'
complete -c plex-page -l workers -x -a '1 2 4 8 16 32 64' -d 'the number of workers'
complete -c plex-page -l jobs -x -a '1000 1000000 10000000' -d 'ends the run after so many jobs'
complete -c plex-page -l help -d 'writes this text'
complete -c plex-page -l version -d 'writes the version'
