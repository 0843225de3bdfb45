# Made by tools/maintain/completion from its table of words.
complete -c plex-step -s x -r -F -d 'takes the commands of a file'
complete -c plex-step -s e -x -a 'c s n where help quit' -d 'takes a command'
complete -c plex-step -l limit -x -a '1000 1000000 10000000' -d 'ends the run after so many jobs'
complete -c plex-step -l help -d 'writes this text'
complete -c plex-step -l version -d 'writes the version'
