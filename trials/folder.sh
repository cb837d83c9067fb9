#!/bin/sh
# Composes streams of the plain files of a folder and compares each byte with what a C program
# makes: half of the files as a full stream, the others in a snapshot of it, each written 49,152
# bytes at a time.
#
#   folder.sh [FOLDER [PROGRAM]]     FOLDER is docs of this repository if none is given
#
# The program is the one that this repository has built, if no other is named; nothing is proved or
# built here. Status 0 if all is the same. Needs gcc.
here=$(CDPATH='' cd -- "$(dirname -- "$0")" && pwd) || exit 2
files=${1:-$here/../docs}
program=$2
. "$here/begin.sh"
gcc -O2 -o "$folder/streams" "$here/../bench/streams.c" || exit 2
"$folder/streams" folder "$files" "$folder" || exit 2

# A full stream alone is spelled as the program spells it, so composing it gives it back.
"$program" compose none "$folder/first" >"$folder/out" || exit 1
cmp -- "$folder/first" "$folder/out" || exit 1
"$program" compose none "$folder/first" "$folder/second" >"$folder/out" || exit 1
cmp -- "$folder/both" "$folder/out" || exit 1
echo "the same: $(wc -c <"$folder/first" | tr -d ' ') and $(wc -c <"$folder/both" | tr -d ' ') bytes"
