#!/bin/sh
# Time for a call of Extents on files of 1,000 to 500,000 runs, which is to grow like the logarithm
# of that number. Proves and builds the program first.
cd "$(dirname "$0")/../crates/extent_bench" || exit 2
rt run -- 1 >/dev/null 2>&1 || { echo "extent_bench did not build" >&2; exit 1; }
for count in 1000 10000 100000 500000; do
    echo "$count runs"
    out/extent_bench "$count" time 2>&1 >/dev/null || exit 1
done
