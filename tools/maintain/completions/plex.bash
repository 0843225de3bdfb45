# Made by tools/maintain/completion from its table of words. Source this file, or put it into a
# folder of bash-completion under the name of plex.

# The names of files that begin with the word, or of folders.
_plex_names() {
    compopt -o filenames 2>/dev/null
    mapfile -t COMPREPLY < <(compgen "-$1" -- "$2")
}

# Those of the words behind the first one that begin with it.
_plex_words() {
    local begun=$1
    shift
    mapfile -t COMPREPLY < <(compgen -W "$*" -- "$begun")
}

# The options that do not stand on the line yet.
_plex_options() {
    local begun=$1 option left=()
    shift
    for option; do
        [[ " ${COMP_WORDS[*]:2:COMP_CWORD-2} " == *" $option "* ]] || left+=("$option")
    done
    _plex_words "$begun" "${left[@]}"
}

_plex() {
    local word=${COMP_WORDS[COMP_CWORD]} before=${COMP_WORDS[COMP_CWORD-1]}
    local files options
    COMPREPLY=()
    if ((COMP_CWORD == 1)); then
        _plex_words "$word" run single timed change trace analyse certify list load
        return
    fi
    case ${COMP_WORDS[1]} in
        run) files=2 options='--workers --jobs --cert' ;;
        single) files=2 options='--jobs' ;;
        timed) files=3 options='--workers --jobs' ;;
        change) files=4 options='--workers --jobs' ;;
        trace) files=3 options='--jobs' ;;
        analyse) files=1 options='' ;;
        certify) files=1 options='' ;;
        list) files=1 options='' ;;
        load)
            ((COMP_CWORD > 2)) || _plex_words "$word" 1 10 100 1000 10000
            return
            ;;
        *) return ;;
    esac
    if ((COMP_CWORD < 2 + files)); then
        _plex_names f "$word"
    elif (((COMP_CWORD - files) % 2 == 0)); then
        # shellcheck disable=SC2086
        _plex_options "$word" $options
    else
        case $before in
            --workers) _plex_words "$word" '1 2 4 8 16 32 64' ;;
            --jobs) _plex_words "$word" '1000 1000000 10000000' ;;
            --cert) _plex_names f "$word" ;;
        esac
    fi
}
complete -F _plex plex
