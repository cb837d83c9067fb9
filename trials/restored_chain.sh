#!/bin/bash
# Tries chains that go on after a restore, with the real tools. A chain is received into a store,
# day by day. After one of its days the machine is lost: that day is restored from the store with
# the real `btrfs receive`, onto a fresh file system. What is done the next day is done there, and
# sent with `-p` the restored day: its stream names that day's UUID, and another CTRANSID.
#
#   restored_chain.sh [PROGRAM]     PROGRAM is crates/btrsend/out/btrsend if none is given
#
# The next stream has to be refused as NoParent, by `audit`, `compose`, `export` and `receive`, and
# nothing is changed then. The explanation says what to put before the file. With this,
# `parent:UUID:CTRANSID`, they accept it, and the days after it need nothing. At the end each day is
# restored from the store. And all days, and those after the restore, are merged over none and over
# a store of the days before, and exported and received; the second are also received into that
# store, and restored from it. Bytes and metadata of every path of each are compared with the
# snapshot that was sent, and with what `btrfs receive` makes of the streams alone.
#
# It tries cases of received.sh in both versions of the protocol, one of them with two restores, and
# CHAINS random chains (4). A line for each begins with `right` or `WRONG`. Needs btrfs-progs,
# python3, and the right to mount an image. Nothing is proved or built here. Status 0 if all are
# right, and 2 if nothing can be received here.
set -o pipefail
here=$(CDPATH='' cd -- "$(dirname -- "$0")" && pwd) || exit 2
btrsend=${1:-$here/../crates/btrsend/out/btrsend}
[ -f "$btrsend" ] && [ -x "$btrsend" ] || { echo "there is no program $btrsend" >&2; exit 2; }
btrsend=$(CDPATH='' cd -- "$(dirname -- "$btrsend")" && pwd)/$(basename -- "$btrsend") || exit 2
. "$here/chains.sh"

# CASE DAY: the day is restored from the store onto the fresh file system `machine.DAY`, on which
# some things were done before, so that it does not count as the other did. What is done next is
# done there.
lost() {
    fresh "machine.$2" 256
    for _ in 1 2 3 4 5; do
        touch "$folder/machine.$2/before" && sync -f "$folder/machine.$2" && rm "$folder/machine.$2/before" || exit 2
    done
    "$btrsend" restore "$folder/store" "day$2" | btrfs -q receive "$folder/machine.$2" || return
    rm -f -- "$folder/store.$2" && cp "$folder/store" "$folder/store.$2" || exit 2
    place=$folder/machine.$2
    btrfs -q subvolume snapshot "$place/day$2" "$place/work" || exit 2
}

# FILE DAY: the stream of the next day has to be refused. Gives what its explanation says is to be
# put before it, which has to be the day before as `list` shows it.
refused_at_first() {
    cp "$folder/store" "$folder/store.kept" || return
    local command
    for command in audit compose export receive; do
        "$btrsend" $command "$folder/store" "$1" >/dev/null 2>"$folder/note"
        [ $? = 1 ] && [ "$(cat "$folder/note")" = 'refused 1 1 17 13 NoParent' ] || return
    done
    BTRSEND_EXPLAIN=1 "$btrsend" receive "$folder/store" "$1" >/dev/null 2>"$folder/note"
    cmp -s "$folder/store" "$folder/store.kept" || return
    said=$(sed -n 's/.* if it is the same one, restored, put \(parent:[^ ]*\) before the file$/\1/p' "$folder/note")
    [ -n "$said" ] && [ "$said" = "$("$btrsend" list "$folder/store" | awk -v day="day$2" '$1 == day { print "parent:" $2 ":" $3 }')" ]
}

# NAME SUBVOLUME DAY: what was received somewhere is the snapshot that was sent on that day, and
# what the streams alone make.
same() {
    differs=$(python3 "$folder/compare" "$began" "$2" "$folder/chain/day$3" "${sent[$3]}") && return
    judged "$1" 1
    echo "$differs"
    return 1
}

# NAME STORE PLACE DAY WORDS..: what these words are merged into over a store, or over none, is
# exported and received at a place.
merged() {
    local name=$1 over=$2 at=$3 last=$4
    shift 4
    "$btrsend" compose "$over" "$@" >"$folder/merged.stream" &&
        "$btrsend" export "$over" "$folder/merged.stream" | btrfs -q receive "$at" || {
        judged "$name" 1 "the one stream was not made or not received"
        return 1
    }
    same "$name" "$at/day$last" "$last"
}

# NAME DAY: a day is restored from the store of a name.
restored_from() {
    fresh alone 256
    "$btrsend" restore "$2" "day$3" | btrfs -q receive "$folder/alone" || {
        judged "$1" 1 "day $3 was not restored"
        return 1
    }
    same "$1, day $3" "$folder/alone/day$3" "$3"
}

# CASE DAYS VERSION NAME RESTORES..: a chain of so many days, and a restore after each of these.
went_on() {
    local case=$1 days=$2 version=$3 name=$4 place=$folder/source
    shift 4
    fresh source 256
    btrfs -q subvolume create "$folder/source/work" || exit 2
    rm -f -- "$folder/store" && "$btrsend" init "$folder/store" || exit 2
    words=() sent=()
    for day in $(seq "$days"); do
        (cd "$place/work" && day_of "$case" "$day") || [ "$case" = random ] || exit 2
        btrfs -q subvolume snapshot -r "$place/work" "$place/day$day" || exit 2
        sent[day]=$place/day$day
        from=()
        [ "$day" = 1 ] || from=(-p "$place/day$((day - 1))")
        btrfs -q send --proto "$version" "${from[@]}" -f "$folder/day$day" "$place/day$day" || exit 2
        case " $* " in
        *" $((day - 1)) "*)
            refused_at_first "$folder/day$day" $((day - 1)) || { judged "$name" 1 "day $day was not refused as it has to be"; return; }
            words+=("$said")
            today=("$said" "$folder/day$day")
            ;;
        *) today=("$folder/day$day") ;;
        esac
        words+=("$folder/day$day")
        "$btrsend" receive "$folder/store" "${today[@]}" >/dev/null || { judged "$name" 1 "day $day was not received"; return; }
        case " $* " in *" $day "*) lost "$case" "$day" || { judged "$name" 1 "day $day was not restored"; return; } ;; esac
    done
    made_again "$name" "$1"
}

# NAME RESTORE: all ways back of the chain that was sent, the first restore of which was after a
# day.
made_again() {
    began=$(date +%s%N)
    fresh chain 512
    for day in $(seq "$days"); do
        btrfs -q receive "$folder/chain" <"$folder/day$day" || { judged "$1" 1 "btrfs receive refused day $day"; return; }
    done
    for day in $(seq "$days"); do restored_from "$1" "$folder/store" "$day" || return; done
    fresh merged 256
    merged "$1, merged over none" none "$folder/merged" "$days" "${words[@]}" || return
    fresh beside 256
    "$btrsend" restore "$folder/store.$2" "day$2" | btrfs -q receive "$folder/beside" || exit 2
    merged "$1, merged over the store" "$folder/store.$2" "$folder/beside" "$days" "${words[@]:$2}" || return
    "$btrsend" receive "$folder/store.$2" "$folder/merged.stream" >/dev/null || { judged "$1" 1 "the one stream was not received"; return; }
    restored_from "$1, merged and received" "$folder/store.$2" "$days" || return
    judged "$1" 0
}

for version in 1 2; do
    went_on kinds 2 $version "kinds, version $version" 1
    for name in saved logs folders links swapped reflinks holes; do
        went_on $name 4 $version "$name, version $version" 2
    done
    went_on reflinks 4 $version "reflinks with two restores, version $version" 1 3
done
for seed in $(seq "${CHAINS:-4}"); do
    went_on random 8 $((1 + seed % 2)) "random $seed with two restores, version $((1 + seed % 2))" 3 6
done
echo "$right right, $wrong wrong, with $receiver"
[ $wrong = 0 ]
