# start.sh: the end of each launcher, which has put the program's path into $program and its name
# into $name. Answers what asks for help or for the version on the standard output, with status 0;
# all that it writes comes from the program itself. For any other words it becomes the program.

# The usage lines that the program writes, one a line, of one command or of all.
usage_of() {
    "$program" --help 2>/dev/null | sed 's/^usage: //' | tr '|' '\n' | sed 's/^ *//; s/ *$//' |
        grep -- "^$1" | sed '1s/^/usage: /; 2,$s/^/       /'
}
# What the program says of its commands, one a line, and of its manual page.
meaning_of() {
    "$program" --help 2>&1 >/dev/null | grep -v '^usage: ' | grep -- "^$1"
}
# The help of one command of plex; 1 where there is no such command.
help_of() {
    case $1 in
        *[!a-z]* | '') return 1 ;;
    esac
    usage=$(usage_of "$name $1 ")
    [ -n "$usage" ] || return 1
    printf '%s\n\n' "$usage"
    meaning_of "$name $1 " | sed "s/^$name //"
    meaning_of 'man '
}
case $#:${1-}:${2-} in
    1:--version:)
        "$program" --version 2>&1 >/dev/null
        exit 0
        ;;
    1:--help: | 1:-h: | 1:help:)
        usage_of "$name"
        echo
        meaning_of ''
        exit 0
        ;;
    2:help:* | 2:*:--help | 2:*:-h)
        command=$1
        [ "$1" = help ] && command=$2
        # A file may have such a name; then the words are those of a command.
        if [ "$name" = plex ] && [ ! -e "$2" ] && help_of "$command"; then
            exit 0
        fi
        ;;
esac
# A limit on the size of files is told by a write that fails, and does not end the program.
trap '' XFSZ
exec "$program" "$@"
