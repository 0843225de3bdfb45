# Made by tools/maintain/completion from its table of words. Source this file, or put it into a
# folder of bash-completion under the name of plex-merge.

# The names of files that begin with the word, or of folders.
_plex_names() {
    compopt -o filenames 2>/dev/null
    mapfile -t COMPREPLY < <(compgen "-$1" -- "$2")
}

# Those of the words behind the first one that begin with it.
_plex_words() {
    local begun=$1
    shift
    mapfile -t COMPREPLY < <(compgen -W "$*" -- "$begun")
}

# plex-merge makes one signal file of a signal file and a table.
_plex_merge() {
    COMPREPLY=()
    ((COMP_CWORD > 3)) || _plex_names f "${COMP_WORDS[COMP_CWORD]}"
}
complete -F _plex_merge plex-merge
