#!/bin/sh
# The launcher `btrsend` at the top of the repository: what it says while the program is built, how
# it puts the program in place, and how it runs it while nothing is built. With no word nothing is
# proved or built here: a command `rt` of this script's own stands for the kit's. With the word
# --unproved the kit's is used too, for a run of the program by `rt try`, which takes some minutes.
#
#   launcher.sh [--unproved] [PROGRAM]
#
# PROGRAM is a built one, crates/btrsend/out/btrsend if none is given. It ends with status 0 only if
# all is right.
here=$(CDPATH='' cd -- "$(dirname -- "$0")" && pwd)/.. || exit 2
here=$(CDPATH='' cd -- "$here" && pwd) || exit 2
tries=
[ "$1" = --unproved ] && { tries=1; shift; }
program=${1:-$here/crates/btrsend/out/btrsend}
[ -x "$program" ] || { echo "$program is not built" >&2; exit 2; }
room=$(mktemp -d) || exit 2
trap 'rm -rf -- "$room"' EXIT
right=0 wrong=0
case_is() {
    if [ "$2" = "" ]; then
        right=$((right + 1))
    else
        wrong=$((wrong + 1))
        echo "$1: $2"
    fi
}

# A repository of two crates, whose program is there once the command `rt` here was called.
fresh() {
    rm -rf -- "$room/top" "$room/tools"
    mkdir -p -- "$room/top/docs" "$room/top/crates/btrsend/src" "$room/tools" || exit 2
    cp -- "$here/btrsend" "$room/top/btrsend" && cp -- "$here/docs/btrsend.1" "$room/top/docs/btrsend.1" || exit 2
    printf 'low:\nbtrsend: low\nother: low\n' >"$room/top/crates.txt"
    echo 'fn main() {}' >"$room/top/crates/btrsend/src/main.rt"
    cat >"$room/tools/rt" <<RT
#!/bin/sh
case \$1 in
all) printf '== low\nlow is proved\n== btrsend\nbtrsend is proved\n== summary\n'; [ ! -e "$room/fails" ] ;;
run) mkdir -p out && cp -- "$program" out/btrsend ;;
esac
RT
    chmod 755 "$room/tools/rt"
}
launch() {
    (cd -- "$room" && PATH=$room/tools:$PATH timeout 60 "$room/top/btrsend" "$@" >out 2>note)
    status=$?
}

fresh
launch --version
case_is 'the first call builds the program and runs it' \
    "$([ "$status" = 0 ] && [ "$(cat "$room/out")" = "$("$program" --version)" ] || echo "status $status, $(cat "$room/note")")"
case_is 'a line is said for each crate that is done' \
    "$(grep -q '^btrsend: crate 1 of 2 is done, low; ' "$room/note" && grep -q '^btrsend: crate 2 of 2 is done, btrsend; ' "$room/note" || cat "$room/note")"
case_is 'after the last crate it is said what comes next' \
    "$(tail -n 2 "$room/note" | grep -q '^btrsend: all is proved; compiling and linking the program' || cat "$room/note")"
launch --version
case_is 'the second call builds nothing' "$([ "$status" = 0 ] && [ ! -s "$room/note" ] || echo "status $status, $(cat "$room/note")")"
echo '// changed' >>"$room/top/crates/btrsend/src/main.rt"
launch --version
case_is 'after a change it is built anew' "$([ "$status" = 0 ] && [ -s "$room/note" ] || echo "status $status")"

for time in first second; do
    launch --install "$room/place"
    case_is "the $time install" "$([ "$status" = 0 ] && cmp -s "$program" "$room/place/bin/btrsend" &&
        cmp -s "$here/docs/btrsend.1" "$room/place/share/man/man1/btrsend.1" || echo "status $status, $(cat "$room/note")")"
done
case_is 'nothing else is put in place' "$([ "$(find "$room/place" -type f | wc -l)" = 2 ] || find "$room/place" -type f)"
case_is 'the installed program runs' "$([ "$("$room/place/bin/btrsend" --version)" = "$("$program" --version)" ] || echo 'it does not')"
case_is 'it needs the C library alone' "$(ldd "$room/place/bin/btrsend" | grep -v -e vdso -e ld-linux -e 'libc\.so' -e 'statically linked' -e 'not a dynamic')"

fresh
: >"$room/fails"
launch --version
case_is 'a build that fails' "$([ "$status" = 126 ] && grep -q 'the program could not be built' "$room/note" || echo "status $status, $(cat "$room/note")")"
rm -f -- "$room/fails"
fresh
rm -f -- "$room/tools/rt"
(cd -- "$room" && PATH=/usr/bin:/bin timeout 60 "$room/top/btrsend" --version >out 2>note)
status=$?
[ -x /usr/bin/rt ] || [ -x /bin/rt ] ||
    case_is 'no command rt' "$([ "$status" = 127 ] && grep -q 'there is no command rt' "$room/note" || echo "status $status, $(cat "$room/note")")"
launch --unproved receive st file
case_is 'a word that would keep nothing is not run unproved' "$([ "$status" = 126 ] && grep -q 'receive would keep nothing' "$room/note" || echo "status $status")"

if [ -n "$tries" ]; then
    cp -- "$here/docs/example/monday" "$room/monday" || exit 2
    (cd -- "$room" && "$here/btrsend" --unproved audit none monday >out 2>note)
    status=$?
    case_is 'a run of the program that is not built' "$([ "$status" = 0 ] && grep -q '^accepted 1 ' "$room/out" || echo "status $status, $(cat "$room/out" "$room/note")")"
    case_is 'it is said that it is slow and not proved' "$(head -n 1 "$room/note" | grep -q 'this run is slow, and nothing of it is proved' || cat "$room/note")"
    (cd -- "$room" && "$here/btrsend" --unproved audit none monday monday >out 2>note)
    status=$?
    case_is 'a refusal by it' "$([ "$status" = 1 ] && grep -q '^refused 2 1 17 ' "$room/note" || echo "status $status, $(cat "$room/note")")"
fi

echo "right: $right, wrong: $wrong"
[ "$wrong" = 0 ]
