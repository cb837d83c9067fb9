#!/bin/sh
# Time and peak memory of composing a full stream of 2,000 files with 200 snapshots that write one
# file each; three words may say other numbers of snapshots, of files, and of files that each
# snapshot writes. Proves and builds the program first.
here=$(CDPATH='' cd -- "$(dirname -- "$0")" && pwd) || exit 2
parts=${1:-200}
files=${2:-2000}
changes=${3:-1}
. "$here/prepare.sh"
mkdir "$folder/parts" || exit 2
"$folder/streams" chain "$folder/parts" "$parts" "$files" "$changes" || exit 2
measured=$("$folder/streams" measure "$folder/out" "$program" compose none "$folder"/parts/*) || exit 1
echo "$measured" | awk -v parts="$parts" -v files="$files" -v changes="$changes" '{
    printf "%d snapshots over %d files, %d written in each: %.2f s, peak %.1f MiB\n", parts, files, changes, $1, $2 / 1024
}'
