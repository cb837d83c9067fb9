#!/bin/sh
# Runs all scripts that measure, prints what each says, and one line in the end. Proves and builds
# the program first. Status 0 if all ended with 0.
here=$(CDPATH='' cd -- "$(dirname -- "$0")" && pwd) || exit 2
count=0 failed=
for name in extents compose export squash chain memory; do
    echo "== $name.sh"
    "$here/$name.sh" && count=$((count + 1)) || failed="$failed $name.sh"
done
echo "bench: $count measured${failed:+, failed:$failed}"
[ -z "$failed" ]
