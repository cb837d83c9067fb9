#!/bin/sh
# Time and peak memory of composing one full stream of 512 MiB (or of as many as the first word
# says), beside a C program that does the same work: it reads each byte twice, sums it three times,
# and writes it. Each runs three times, in turn, and its least time counts. Proves and builds the
# program first.
here=$(CDPATH='' cd -- "$(dirname -- "$0")" && pwd) || exit 2
size=${1:-512}
. "$here/prepare.sh"
"$folder/streams" full "$size" >"$folder/stream" || exit 2

for run in 1 2 3; do
    "$folder/streams" measure "$folder/out" "$program" compose none "$folder/stream" >>"$folder/ours" || exit 1
    # The stream is spelled canonically, so composing it alone gives it back.
    cmp -- "$folder/stream" "$folder/out" || exit 1
    "$folder/streams" measure "$folder/out" "$folder/streams" copy "$folder/stream" >>"$folder/theirs" 2>>"$folder/sums" || exit 1
done

echo "$(least "$folder/ours") $(least "$folder/theirs")" | awk -v size="$size" '{
    printf "btrsend compose none: %.2f s, %.0f MiB/s, peak %.1f MiB\n", $1, size / $1, $2 / 1024
    printf "C baseline:           %.2f s, %.0f MiB/s, peak %.1f MiB\n", $3, size / $3, $4 / 1024
    printf "ratio of the times:   %.2f\n", $1 / $3
}'
