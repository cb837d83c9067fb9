# What the trials of a built program begin with (`. "$here/begin.sh"`). `here` is the folder of this
# file, and `program` the program that was named, or nothing for the one that this repository has
# built; it becomes an absolute path. `folder` is a new folder, which goes when the script ends.
program=${program:-$here/../crates/btrsend/out/btrsend}
[ -f "$program" ] && [ -x "$program" ] || { echo "there is no program $program" >&2; exit 2; }
program=$(CDPATH='' cd -- "$(dirname -- "$program")" && pwd)/$(basename -- "$program") || exit 2
folder=$(mktemp -d) || exit 2
trap 'rm -rf -- "$folder"' EXIT
trap 'exit 2' HUP INT TERM
wrong=0

# WHAT: something is wrong.
complain() {
    echo "WRONG: $1"
    wrong=$((wrong + 1))
}
