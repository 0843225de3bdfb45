# Made by tools/maintain/completion from its table of words. Source this file, or put it into a
# folder of bash-completion under the name of each of plex-check, plex-format, plex-why, plex-load,
# plex-step, plex-lsp, plex-page, plex-test, plex-chart.

# The names of files that begin with the word, or of folders.
_plex_names() {
    compopt -o filenames 2>/dev/null
    mapfile -t COMPREPLY < <(compgen "-$1" -- "$2")
}

# Those of the words behind the first one that begin with it.
_plex_words() {
    local begun=$1
    shift
    mapfile -t COMPREPLY < <(compgen -W "$*" -- "$begun")
}

# plex-check tells all faults of files, and what is odd in them.
_plex_check() {
    local word=${COMP_WORDS[COMP_CWORD]} before=${COMP_WORDS[COMP_CWORD-1]}
    COMPREPLY=()
    # bash parts a word at its =
    [[ $before == = ]] && before=${COMP_WORDS[COMP_CWORD-2]}
    [[ $word == = ]] && { before=${COMP_WORDS[COMP_CWORD-1]}; word=; }
    case $before in
        --explain) _plex_words "$word" \
            'TOOLARGE BADBYTE BADNUMBER LONGNAME UNEXPECTED TOODEEP ENDED N1 N2 N3 N4 N5 N6 N7 N8' \
            'N9 N10 N11 N12 N13 N14 N15 N16 N17 NORECEIVER NEEDSREFERENCE NOTRECEIVED NOTINSURVEY' \
            'TWOENTERS NOENTER LIMIT BADLINE UNKNOWNSIGNAL UNKNOWNBLOCK WRONGDATA FALLINGCOUNT' \
            'BADAS BADRANGE TOOMANY BADTEXT WRONGEXCHANGE STRANGE MISSING ENTRY FILE DROPPED' \
            'NARROWED STAYS UNSENT MOVED KEPT NEW RUNSON SWALLOWED UNUSED NOFREE UNREACHED' \
            'RUNSINTO ENDLESS TOOWIDE NORECORD BYZERO CONSTANT NOTURN NEVERREAD LOST KEYWORD' \
            'ODDAS NOJOB' ;;
        --color) _plex_words "$word" 'always never auto' ;;
        --no) _plex_words "$word" \
            'RUNSON SWALLOWED UNUSED NOFREE UNREACHED RUNSINTO ENDLESS TOOWIDE NORECORD BYZERO' \
            'CONSTANT NOTURN NEVERREAD LOST KEYWORD ODDAS NOJOB DROPPED NARROWED STAYS UNSENT' \
            'MOVED KEPT NEW' ;;
        --most) _plex_words "$word" '1 100 1000 100000' ;;
        *)
            if [[ $word == -* ]]; then
                _plex_words "$word" \
                    '--explain --long --short --json --sarif --color --werror --no --most' \
                    '--change --help --version'
            else
                _plex_names f "$word"
            fi
            ;;
    esac
}
complete -F _plex_check plex-check

# plex-format gives exchange texts their one layout.
_plex_format() {
    local word=${COMP_WORDS[COMP_CWORD]} before=${COMP_WORDS[COMP_CWORD-1]}
    COMPREPLY=()
    # bash parts a word at its =
    [[ $before == = ]] && before=${COMP_WORDS[COMP_CWORD-2]}
    [[ $word == = ]] && { before=${COMP_WORDS[COMP_CWORD-1]}; word=; }
    case $before in
        *)
            if [[ $word == -* ]]; then
                _plex_words "$word" '--check --diff --help --version'
            else
                _plex_names f "$word"
            fi
            ;;
    esac
}
complete -F _plex_format plex-format

# plex-why tells which statements keep jobs apart.
_plex_why() {
    local word=${COMP_WORDS[COMP_CWORD]} before=${COMP_WORDS[COMP_CWORD-1]}
    COMPREPLY=()
    # bash parts a word at its =
    [[ $before == = ]] && before=${COMP_WORDS[COMP_CWORD-2]}
    [[ $word == = ]] && { before=${COMP_WORDS[COMP_CWORD-1]}; word=; }
    case $before in
        *)
            if [[ $word == -* ]]; then
                _plex_words "$word" '--all --diff --json --help --version'
            else
                _plex_names f "$word"
            fi
            ;;
    esac
}
complete -F _plex_why plex-why

# plex-load tells what workers bring for a load.
_plex_load() {
    local word=${COMP_WORDS[COMP_CWORD]} before=${COMP_WORDS[COMP_CWORD-1]}
    COMPREPLY=()
    # bash parts a word at its =
    [[ $before == = ]] && before=${COMP_WORDS[COMP_CWORD-2]}
    [[ $word == = ]] && { before=${COMP_WORDS[COMP_CWORD-1]}; word=; }
    case $before in
        --workers) _plex_words "$word" '1 2 4 8 16 32 64' ;;
        --jobs) _plex_words "$word" '1000 1000000 10000000' ;;
        --skip) _plex_words "$word" '10 100 1000' ;;
        --cost-job) ;;
        --cost-send) ;;
        --cost-sync) ;;
        --statement) ;;
        --machines) _plex_names f "$word" ;;
        --trace-json) _plex_names f "$word" ;;
        *)
            if [[ $word == -* ]]; then
                _plex_words "$word" \
                    '--workers --jobs --skip --dense --precision --diff --cost-job --cost-send' \
                    '--cost-sync --statement --machines --trace-json --json --help --version'
            else
                _plex_names f "$word"
            fi
            ;;
    esac
}
complete -F _plex_load plex-load

# plex-step steps through a run, forward and backward.
_plex_step() {
    local word=${COMP_WORDS[COMP_CWORD]} before=${COMP_WORDS[COMP_CWORD-1]}
    COMPREPLY=()
    # bash parts a word at its =
    [[ $before == = ]] && before=${COMP_WORDS[COMP_CWORD-2]}
    [[ $word == = ]] && { before=${COMP_WORDS[COMP_CWORD-1]}; word=; }
    case $before in
        -x) _plex_names f "$word" ;;
        -e) _plex_words "$word" 'c s n where help quit' ;;
        --limit) _plex_words "$word" '1000 1000000 10000000' ;;
        *)
            if [[ $word == -* ]]; then
                _plex_words "$word" '-x -e --limit --help --version'
            else
                _plex_names f "$word"
            fi
            ;;
    esac
}
complete -F _plex_step plex-step

# plex-lsp tells faults and meanings in an editor.
_plex_lsp() {
    local word=${COMP_WORDS[COMP_CWORD]} before=${COMP_WORDS[COMP_CWORD-1]}
    COMPREPLY=()
    # bash parts a word at its =
    [[ $before == = ]] && before=${COMP_WORDS[COMP_CWORD-2]}
    [[ $word == = ]] && { before=${COMP_WORDS[COMP_CWORD-1]}; word=; }
    case $before in
        *)
            if [[ $word == -* ]]; then
                _plex_words "$word" '--stdio --help --version'
            fi
            ;;
    esac
}
complete -F _plex_lsp plex-lsp

# plex-page shows what keeps jobs apart on a page.
_plex_page() {
    local word=${COMP_WORDS[COMP_CWORD]} before=${COMP_WORDS[COMP_CWORD-1]}
    COMPREPLY=()
    # bash parts a word at its =
    [[ $before == = ]] && before=${COMP_WORDS[COMP_CWORD-2]}
    [[ $word == = ]] && { before=${COMP_WORDS[COMP_CWORD-1]}; word=; }
    case $before in
        -o) _plex_names f "$word" ;;
        --workers) _plex_words "$word" '1 2 4 8 16 32 64' ;;
        --jobs) _plex_words "$word" '1000 1000000 10000000' ;;
        *)
            if [[ $word == -* ]]; then
                _plex_words "$word" '-o --workers --jobs --help --version'
            else
                _plex_names f "$word"
            fi
            ;;
    esac
}
complete -F _plex_page plex-page

# plex-test runs folders of cases, and compares their reports.
_plex_test() {
    local word=${COMP_WORDS[COMP_CWORD]} before=${COMP_WORDS[COMP_CWORD-1]}
    COMPREPLY=()
    # bash parts a word at its =
    [[ $before == = ]] && before=${COMP_WORDS[COMP_CWORD-2]}
    [[ $word == = ]] && { before=${COMP_WORDS[COMP_CWORD-1]}; word=; }
    case $before in
        -j | --jobs) _plex_words "$word" '1 2 4 8 16 32 64' ;;
        -k) ;;
        --junit) _plex_names f "$word" ;;
        --timeout) _plex_words "$word" '10 60 600' ;;
        *)
            if [[ $word == -* ]]; then
                _plex_words "$word" \
                    '-j --jobs -k --list -v --verbose --update --no-faults --junit --timeout' \
                    '--help --version'
            else
                _plex_names d "$word"
            fi
            ;;
    esac
}
complete -F _plex_test plex-test

# plex-chart draws the sequence chart of a run.
_plex_chart() {
    local word=${COMP_WORDS[COMP_CWORD]} before=${COMP_WORDS[COMP_CWORD-1]}
    COMPREPLY=()
    # bash parts a word at its =
    [[ $before == = ]] && before=${COMP_WORDS[COMP_CWORD-2]}
    [[ $word == = ]] && { before=${COMP_WORDS[COMP_CWORD-1]}; word=; }
    case $before in
        --jobs) ;;
        --forlopp) ;;
        --block) ;;
        --signal) ;;
        --around) _plex_words "$word" 'FAULT POINTER RANGE DIVIDE NOTOWN NOFORLOPP CHAIN BADEND DEPTH SENDS BUDGET' ;;
        --context) _plex_words "$word" '10 100 1000' ;;
        --most) _plex_words "$word" '10 100 1000' ;;
        --limit) _plex_words "$word" '1000 1000000 10000000' ;;
        -o) _plex_names f "$word" ;;
        --width) _plex_words "$word" '80 100 1000' ;;
        --color) _plex_words "$word" 'always never auto' ;;
        *)
            if [[ $word == -* ]]; then
                _plex_words "$word" \
                    '--jobs --forlopp --block --signal --around --context --most --limit --values' \
                    '--lines --ascii --svg --mermaid --msc -o --width --color --help --version'
            else
                _plex_names f "$word"
            fi
            ;;
    esac
}
complete -F _plex_chart plex-chart
