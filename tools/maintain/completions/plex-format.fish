# Made by tools/maintain/completion from its table of words.
complete -c plex-format -l check -d 'names the files that have another layout'
complete -c plex-format -l diff -d 'tells what would change as unified diffs'
complete -c plex-format -l help -d 'writes this text'
complete -c plex-format -l version -d 'writes the version'
