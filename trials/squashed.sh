#!/bin/sh
# Merged streams and what `squash` makes of them: the same snapshot, and nothing twice.
#
#   squashed.sh [PROGRAM [FILE..]]
#
# PROGRAM is crates/btrsend/out/btrsend if none is given. The files are a chain in its order, of which
# the first begins with a full stream; that of docs/example if none is given.
#
# The chain is merged and squashed over no store, and from each further file on over a store that
# has the files before it; so are chains that `gen` writes, 20 of them, or as many as SEEDS says. Of
# each: a store that receives the merged stream and one that receives the squashed one have the same
# `list` and `show`, and `send` writes the same bytes of both; squashing again changes nothing;
# squashing over the store that has the snapshot already gives the same; both streams are squashed
# to no more bytes than they had. Status 0 if all is right.
here=$(CDPATH='' cd -- "$(dirname -- "$0")" && pwd) || exit 2
program=$1
. "$here/begin.sh"
[ $# -gt 0 ] && shift
example=$here/../docs/example
[ $# -gt 0 ] || set -- "$example/monday" "$example/tuesday" "$example/wednesday"
streams=0 before=0 after=0

# STORE|none FILE..: what is merged over it.
squashed() {
    over=$1
    shift
    streams=$((streams + 1))
    "$program" compose "$over" "$@" >"$folder/merged" || complain "$*: not merged"
    "$program" squash "$over" "$folder/merged" >"$folder/net" || complain "$*: not squashed"
    "$program" squash "$over" "$folder/net" | cmp -s - "$folder/net" || complain "$*: squashing again changes it"
    for which in merged net; do
        if [ "$over" = none ]; then rm -f "$folder/$which.store" && "$program" init "$folder/$which.store"
        else cp "$over" "$folder/$which.store"; fi
        "$program" receive "$folder/$which.store" "$folder/$which" >"$folder/$which.received" ||
            complain "$*: $which is not received"
        "$program" list "$folder/$which.store" >"$folder/$which.list"
        name=$(cut -d ' ' -f 2 "$folder/$which.received")
        "$program" show "$folder/$which.store" "escaped:$name" >"$folder/$which.show"
        "$program" send "$folder/$which.store" "escaped:$name" >"$folder/$which.send"
    done
    for what in received list show send; do
        cmp -s "$folder/merged.$what" "$folder/net.$what" || complain "$*: $what differs"
    done
    "$program" squash "$folder/net.store" "$folder/merged" | cmp -s - "$folder/net" ||
        complain "$*: the snapshot that is there changes it"
    [ "$(wc -c <"$folder/net")" -le "$(wc -c <"$folder/merged")" ] || complain "$*: the squashed stream is longer"
    before=$((before + $(wc -c <"$folder/merged")))
    after=$((after + $(wc -c <"$folder/net")))
}

# FILE..: a chain, over no store, and over a store with its first files.
chain() {
    squashed none "$@"
    rm -f "$folder/base"
    "$program" init "$folder/base"
    while [ $# -gt 1 ]; do
        "$program" receive "$folder/base" "$1" >/dev/null || complain "$1 is not received"
        shift
        squashed "$folder/base" "$@"
    done
}

chain "$@"
seed=0
while [ $seed -lt "${SEEDS:-20}" ]; do
    seed=$((seed + 1))
    "$program" gen $((seed % 7 + 2)) $seed >"$folder/chain"
    squashed none "$folder/chain"
done
echo "squashed: $streams streams of $before bytes in $after, $wrong wrong"
[ $wrong = 0 ]
