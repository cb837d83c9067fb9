#!/bin/sh
# Runs all trials of the whole program, and prints one line for each and one in the end.
#
#   all.sh [PROGRAM]     PROGRAM is crates/btrsend/out/btrsend if none is given
#
# A trial that cannot run here (there is no Btrfs, or no command that it needs) is skipped, and
# counted. What a trial that fails has printed is shown. Nothing is proved or built. Status 0 if
# none failed. It takes some fifteen minutes.
here=$(CDPATH='' cd -- "$(dirname -- "$0")" && pwd) || exit 2
program=${1:-$here/../crates/btrsend/out/btrsend}
[ -f "$program" ] && [ -x "$program" ] || { echo "there is no program $program" >&2; exit 2; }
program=$(CDPATH='' cd -- "$(dirname -- "$program")" && pwd)/$(basename -- "$program") || exit 2
printed=$(mktemp) || exit 2
trap 'rm -f -- "$printed"' EXIT
trap 'exit 2' HUP INT TERM
passed=0 failed=0 skipped=0

# NAME WORDS..: one trial, which ends with status 0 if it passes, and with 2 if it cannot run here.
trial() {
    name=$1
    shift
    "$@" >"$printed" 2>&1
    case $? in
    0) passed=$((passed + 1)) && echo "passed   $name: $(tail -n 1 "$printed")" ;;
    2) skipped=$((skipped + 1)) && echo "skipped  $name: $(tail -n 1 "$printed")" ;;
    *) failed=$((failed + 1)) && echo "FAILED   $name" && cat -- "$printed" ;;
    esac
}

trial words.sh "$here/words.sh"
trial manual.sh "$here/manual.sh"
trial levels.sh "$here/levels.sh"
trial definitions.sh "$here/definitions.sh"
trial edits.sh "$here/edits.sh"
trial transcripts.sh "$here/transcripts.sh"
trial readme.sh "$here/readme.sh" "$program"
trial launcher.sh "$here/launcher.sh" "$program"
trial texts.sh "$here/texts.sh" "$program"
trial streamed.sh "$here/streamed.sh" "$program"
trial squashed.sh "$here/squashed.sh" "$program"
trial tar.sh "$here/tar.sh" "$program"
trial retention.sh "$here/retention.sh" "$program"
trial folder.sh "$here/folder.sh" "$here/../docs" "$program"
trial faults.sh "$here/faults.sh" "$program"
trial killed.sh "$here/killed.sh" 1000 "$program"
BTRSEND=$program trial received.sh "$here/received.sh"
trial restored_chain.sh "$here/restored_chain.sh" "$program"
echo "trials: $passed passed, $failed failed, $skipped skipped"
[ "$failed" = 0 ]
