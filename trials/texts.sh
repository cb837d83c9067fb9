#!/bin/sh
# Streams as text and back: `text` and `pack` of each file, and what the program makes of both.
#
#   texts.sh [PROGRAM [FILE..]]
#
# PROGRAM is crates/btrsend/out/btrsend if none is given, and the files are those of docs/example. Each
# is a whole stream, or several one after the other.
#
# Of each file: `text` ends with status 0; `pack` makes streams of this text, which have the same
# text, in a pipe too; packing that again changes nothing; `dump` prints the same commands of both,
# but for their places. What `compose` and `gen` write is in the one spelling already, so it comes
# back byte for byte; so is what `send` of a store writes. A text that is cut behind each of its
# lines is refused at the line behind the last one. Status 0 if all is right.
here=$(CDPATH='' cd -- "$(dirname -- "$0")" && pwd) || exit 2
program=$1
. "$here/begin.sh"
[ $# -gt 0 ] && shift
example=$here/../docs/example
[ $# -gt 0 ] || set -- "$example/monday" "$example/tuesday" "$example/wednesday"
files=0

# FILE WHAT: something is wrong with it.
complain() {
    echo "WRONG $1: $2"
    wrong=$((wrong + 1))
}

# FILE: its text, and the streams of that.
there_and_back() {
    "$program" text "$1" >"$folder/text" || complain "$1" 'it has no text'
    "$program" pack "$folder/text" >"$folder/packed" || complain "$1" 'its text is refused'
    "$program" text "$folder/packed" | cmp -s - "$folder/text" || complain "$1" 'the packed streams have another text'
    "$program" text "$1" | "$program" pack /dev/stdin | cmp -s - "$folder/packed" || complain "$1" 'a pipe gives other bytes'
    "$program" text "$folder/packed" | "$program" pack /dev/stdin | cmp -s - "$folder/packed" ||
        complain "$1" 'packing again changes it'
    "$program" dump "$1" | sed 's/^[0-9]* [0-9]* //' >"$folder/commands"
    "$program" dump "$folder/packed" | sed 's/^[0-9]* [0-9]* //' | cmp -s - "$folder/commands" ||
        complain "$1" 'dump prints other commands'
}

# FILE: it comes back byte for byte.
comes_back() {
    there_and_back "$1"
    cmp -s "$folder/packed" "$1" || complain "$1" 'it does not come back byte for byte'
}

for file in "$@"; do
    files=$((files + 1))
    there_and_back "$file"
    if "$program" compose none "$file" >"$folder/composed" 2>/dev/null; then comes_back "$folder/composed"; fi
    if "$program" export none "$file" >"$folder/exported" 2>/dev/null; then there_and_back "$folder/exported"; fi
done
"$program" gen 8 1 >"$folder/made" && comes_back "$folder/made"
"$program" init "$folder/store" && "$program" receive "$folder/store" "$folder/made" >"$folder/received" &&
    for name in $(cut -d ' ' -f 2 "$folder/received"); do
        "$program" send "$folder/store" "$name" >"$folder/sent" && comes_back "$folder/sent"
    done

# A text that stops short.
"$program" text "$1" >"$folder/whole" || exit 1
lines=$(grep -n '^END$' "$folder/whole" | head -n 1 | cut -d : -f 1)
line=0
while [ $line -lt "$((lines - 1))" ] && [ $line -lt 200 ]; do
    head -n $line "$folder/whole" >"$folder/cut"
    "$program" pack "$folder/cut" >"$folder/front" 2>"$folder/note"
    status=$?
    echo "refused 1 $((line + 1)) $(wc -c <"$folder/cut" | tr -d ' ') 37 BadText" | cmp -s - "$folder/note" && [ $status = 1 ] ||
        complain "$1, cut behind line $line" "status $status, $(cat "$folder/note")"
    line=$((line + 1))
done
echo "texts: $files files, $wrong wrong"
[ $wrong = 0 ]
