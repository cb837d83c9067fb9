# What scripts that measure begin with (`. "$here/prepare.sh"`): the program is proved and built,
# and a folder is made that goes with the script; in it stands what streams.c makes. `here` is the
# folder of this file. `least` gives the least line of a file of measures.
"$here/../btrsend" --version >/dev/null || exit 2
program=$here/../crates/btrsend/out/btrsend
folder=$(mktemp -d) || exit 2
trap 'rm -rf -- "$folder"' EXIT
trap 'exit 2' HUP INT TERM
gcc -O2 -o "$folder/streams" "$here/streams.c" || exit 2
least() { sort -n "$1" | head -n 1; }
