#!/bin/sh
# Thins a store: of 30 daily snapshots three are kept, in a new store that has room for no more.
#
#   retention.sh [PROGRAM]     PROGRAM is crates/btrsend/out/btrsend if none is given
#
# 30 days are received: one file is written anew each day, one grows, one comes and goes, one is
# cloned and one stays. Then for each of the days 10, 20 and 30 the streams since the kept day
# before come out of the store by `stream`, `compose` merges them, `squash` takes out what the kept
# day does not have, and the new store receives that. `scrub` reads all of it. The kept days must be
# the same in both stores: what `show` prints, what `send` writes, and what `cat` writes of each
# file. The last line has the sizes. Status 0 if all is right.
here=$(CDPATH='' cd -- "$(dirname -- "$0")" && pwd) || exit 2
program=$1
. "$here/begin.sh"
cd -- "$folder" || exit 2

# DAY: its stream as a text.
day() {
    awk -v day="$1" '
        # COUNT bytes of value N
        function bytes(n, count,   one, all, k) {
            one = sprintf("%02x", n % 256); all = ""
            for (k = 0; k < 12; k++) { if (int(count / 2 ^ k) % 2) all = all one; one = one one }
            return all
        }
        function uuid(n) { return sprintf("%08x-0000-4000-8000-000000000000", n) }
        BEGIN {
            print "stream 1"
            if (day == 1) {
                print "SUBVOL uuid=" uuid(1) " ctransid=1 path=day1"
                for (k = split("daily log same copy", name, " "); k; k--) print "MKFILE path=" name[k]
                for (k = 0; k < 32; k++) print "WRITE path=same offset=" k * 2048 " data=" bytes(200 + k, 2048)
            } else {
                print "SNAPSHOT uuid=" uuid(day) " ctransid=" day " path=day" day " clone_uuid=" uuid(day - 1) " clone_ctransid=" day - 1
                print "UNLINK path=of" day - 1
                print "CLONE path=copy offset=" day % 8 * 4096 " clone_uuid=" uuid(day - 1) " clone_ctransid=" day - 1 \
                    " clone_path=same clone_offset=0 clone_len=4096"
            }
            for (k = 0; k < 128; k++) print "WRITE path=daily offset=" k * 2048 " data=" bytes(day + k, 2048)
            print "WRITE path=log offset=" (day - 1) * 100 " data=" bytes(day, 100)
            print "MKFILE path=of" day
            print "WRITE path=of" day " offset=0 data=" bytes(day, 1000)
            print "UTIMES mtime=" day ".0 atime=" day ".0 path=daily"
            print "END"
        }'
}

"$program" init all && "$program" init kept || complain 'no store'
number=1
while [ $number -le 30 ]; do
    day $number | sed 's/\.0 /.000000000 /g' | "$program" pack /dev/stdin >"sent$number" || complain "day $number has no stream"
    "$program" receive all "sent$number" >/dev/null || complain "day $number is not received"
    number=$((number + 1))
done

over=none number=1
for keep in 10 20 30; do
    set --
    while [ $number -le $keep ]; do
        "$program" stream all day$number >"day$number" || complain "day $number does not come out"
        set -- "$@" "day$number"
        number=$((number + 1))
    done
    "$program" compose $over "$@" >merged || complain "the days up to $keep are not merged"
    "$program" squash $over merged >smaller || complain "the days up to $keep are not squashed"
    "$program" receive kept smaller >/dev/null || complain "day $keep is not received"
    echo "up to day $keep: merged $(wc -c <merged) bytes, squashed $(wc -c <smaller)"
    over=kept
done
"$program" scrub kept >/dev/null || complain 'the new store is damaged'

# What there must be is what there was.
same() {
    "$program" "$1" all "$2" $3 >one 2>&1
    "$program" "$1" kept "$2" $3 >two 2>&1
    cmp -s one two || complain "$*: another answer"
}
for keep in 10 20 30; do
    same show day$keep
    same send day$keep
    for file in daily log same copy of$keep; do same cat day$keep $file; done
done
[ "$("$program" list kept | wc -l)" = 3 ] || complain 'there are not three snapshots'
echo "retention: 30 snapshots in $(wc -c <all) bytes, 3 of them in $(wc -c <kept), $wrong wrong"
[ $wrong = 0 ]
