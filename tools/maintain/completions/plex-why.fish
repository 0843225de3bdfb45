# Made by tools/maintain/completion from its table of words.
complete -c plex-why -l all -d 'lists all statements'
complete -c plex-why -l diff -d 'compares two exchange texts'
complete -c plex-why -l json -d 'writes JSON'
complete -c plex-why -l help -d 'writes this text'
complete -c plex-why -l version -d 'writes the version'
