#!/bin/sh
# Streams out of a store: what `stream` writes of each snapshot is what was received.
#
#   streamed.sh [PROGRAM [FILE..]]
#
# PROGRAM is crates/btrsend/out/btrsend if none is given. The files are a chain in its order, that of
# docs/example if none is given. Each has one or more whole streams of one snapshot each.
#
# The chain, and what `gen` writes, is received into a store. What `stream` writes of all snapshots,
# one after the other, is byte for byte what `pack` makes of the text of the files, the one spelling
# of the same commands. A second store receives it, in the same order, and its `list` and `show` are
# those of the first. Status 0 if all is right.
here=$(CDPATH='' cd -- "$(dirname -- "$0")" && pwd) || exit 2
program=$1
. "$here/begin.sh"
[ $# -gt 0 ] && shift
example=$here/../docs/example
[ $# -gt 0 ] || set -- "$example/monday" "$example/tuesday" "$example/wednesday"
snapshots=0

# FILE..: a chain.
chain() {
    rm -f "$folder"/*
    "$program" init "$folder/one" && "$program" init "$folder/two" || complain 'no store'
    "$program" receive "$folder/one" "$@" >"$folder/received" || complain "$* is refused"
    for file in "$@"; do "$program" text "$file" | "$program" pack /dev/stdin; done >"$folder/spelled"
    for name in $(cut -d ' ' -f 2 "$folder/received"); do
        snapshots=$((snapshots + 1))
        "$program" stream "$folder/one" "escaped:$name" >"$folder/streamed" || complain "$name has no stream"
        cat "$folder/streamed" >>"$folder/all"
        "$program" receive "$folder/two" "$folder/streamed" >/dev/null || complain "the stream of $name is refused"
    done
    cmp -s "$folder/all" "$folder/spelled" || complain "$*: what comes out is not what went in"
    "$program" list "$folder/one" >"$folder/list"
    "$program" list "$folder/two" | cmp -s - "$folder/list" || complain "$*: another list"
    for name in $(cut -d ' ' -f 2 "$folder/received"); do
        "$program" show "$folder/one" "escaped:$name" >"$folder/show"
        "$program" show "$folder/two" "escaped:$name" | cmp -s - "$folder/show" || complain "$name is shown otherwise"
        "$program" send "$folder/one" "escaped:$name" >"$folder/send"
        "$program" send "$folder/two" "escaped:$name" | cmp -s - "$folder/send" || complain "$name has other bytes"
    done
}

chain "$@"
made=$(mktemp -d) || exit 2
trap 'rm -rf -- "$folder" "$made"' EXIT
for seed in 1 2 3 4 5; do
    "$program" gen 8 $seed >"$made/chain" && chain "$made/chain"
done
echo "streamed: $snapshots snapshots, $wrong wrong"
[ $wrong = 0 ]
