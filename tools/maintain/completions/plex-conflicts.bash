# Made by tools/maintain/completion from its table of words. Source this file, or put it into a
# folder of bash-completion under the name of plex-conflicts.

# The names of files that begin with the word, or of folders.
_plex_names() {
    compopt -o filenames 2>/dev/null
    mapfile -t COMPREPLY < <(compgen "-$1" -- "$2")
}

# Those of the words behind the first one that begin with it.
_plex_words() {
    local begun=$1
    shift
    mapfile -t COMPREPLY < <(compgen -W "$*" -- "$begun")
}

# plex-conflicts tells all conflicts of entries.
_plex_conflicts() {
    COMPREPLY=()
    ((COMP_CWORD > 1)) || _plex_names f "${COMP_WORDS[COMP_CWORD]}"
}
complete -F _plex_conflicts plex-conflicts
