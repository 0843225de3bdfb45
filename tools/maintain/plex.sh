#!/bin/sh
# plex WORDS, plex-merge WORDS, plex-conflicts WORDS: runs the program of this name that is
# installed beside this, in lib/plex.
place=$0
case $place in
    */*) ;;
    *) place=./$place ;;
esac
if [ -L "$place" ]; then
    place=$(readlink -f "$place")
fi
name=${place##*/}
program=${place%/*}/../lib/plex/$name
. "${place%/*}/../lib/plex/start.sh"
