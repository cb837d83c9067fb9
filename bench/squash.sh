#!/bin/sh
# Time and peak memory of squashing: one full stream of 512 MiB of which all bytes stay, beside
# composing it; 30 days that each write a file of 64 MiB anew, merged; and a file that is cloned
# onto its own end 50 times. Three words may say other numbers of MiB of the stream, of days, and of
# MiB of the file. The first is done three times, in turn, and its least time counts. Proves and
# builds the program first.
here=$(CDPATH='' cd -- "$(dirname -- "$0")" && pwd) || exit 2
size=${1:-512}
days=${2:-30}
file=${3:-64}
. "$here/prepare.sh"
"$folder/streams" full "$size" >"$folder/stream" || exit 2
for run in 1 2 3; do
    "$folder/streams" measure "$folder/out" "$program" compose none "$folder/stream" >>"$folder/composed" || exit 1
    "$folder/streams" measure "$folder/out" "$program" squash none "$folder/stream" >>"$folder/squashed" || exit 1
    cmp -- "$folder/stream" "$folder/out" || exit 1
done
echo "$(least "$folder/composed") $(least "$folder/squashed")" | awk -v size="$size" '{
    printf "%d MiB that stay: compose %.2f s, squash %.2f s, ratio %.2f, peak %.1f MiB\n", size, $1, $3, $3 / $1, $4 / 1024
}'

mkdir "$folder/days" || exit 2
"$folder/streams" days "$folder/days" "$days" "$file" || exit 2
"$program" compose none "$folder"/days/* >"$folder/merged" || exit 1
measured=$("$folder/streams" measure "$folder/out" "$program" squash none "$folder/merged") || exit 1
"$program" compose none "$folder/days/000000" >"$folder/one" || exit 1
echo "$measured $(wc -c <"$folder/merged") $(wc -c <"$folder/out") $(wc -c <"$folder/one")" | awk -v days="$days" -v file="$file" '{
    printf "%d days of %d MiB: %.2f s, peak %.1f MiB, %d bytes in %d, of one day %d\n", days, file, $1, $2 / 1024, $3, $4, $5
}'

{
    printf 'stream 1\nSUBVOL uuid=00000001-0000-4000-8000-000000000000 ctransid=1 path=a\nMKFILE path=f\n'
    printf 'WRITE path=f offset=0 data=%04096d\n' 0 | sed 's/0\{4096\}/&&/'
    awk 'BEGIN {
        for (len = 4096; len < 4096 * 2 ^ 50; len *= 2)
            printf "CLONE path=f offset=%.0f clone_uuid=00000001-0000-4000-8000-000000000000 clone_ctransid=1 clone_path=f clone_offset=0 clone_len=%.0f\n", len, len
    }'
    printf 'END\n'
} >"$folder/text"
"$program" pack "$folder/text" >"$folder/doubled" || exit 1
measured=$("$folder/streams" measure "$folder/out" "$program" squash none "$folder/doubled") || exit 1
echo "$measured" | awk '{ printf "a file cloned onto its own end 50 times: %.3f s, peak %.1f MiB\n", $1, $2 / 1024 }'
