#!/bin/sh
# Time and peak memory of exporting one full stream of 512 MiB (or of as many as the first word
# says), beside auditing it and copying what is exported. Each runs three times, in turn, and its
# least time counts. Proves and builds the program first.
here=$(CDPATH='' cd -- "$(dirname -- "$0")" && pwd) || exit 2
size=${1:-512}
. "$here/prepare.sh"
"$folder/streams" full "$size" >"$folder/stream" || exit 2

for run in 1 2 3; do
    "$folder/streams" measure "$folder/line" "$program" audit none "$folder/stream" >>"$folder/audits" || exit 1
    "$folder/streams" measure "$folder/out" "$program" export none "$folder/stream" >>"$folder/exports" || exit 1
    "$folder/streams" measure "$folder/copy" cat "$folder/out" >>"$folder/copies" || exit 1
    cmp -- "$folder/out" "$folder/copy" || exit 1
done
echo "$(least "$folder/audits") $(least "$folder/copies") $(least "$folder/exports")" | awk -v size="$size" '{
    printf "%d MiB: audit %.2f s, copying %.2f s, export %.2f s, ratio %.2f, peak %.1f MiB\n", size, $1, $3, $5, $5 / ($1 + $3), $6 / 1024
}'
