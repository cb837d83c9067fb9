# A part of faults.sh, which reads it: explanations, with BTRSEND_EXPLAIN and on a terminal, and
# what is said in front of files, `name:NEW` and `parent:UUID:CTRANSID`. It uses the streams and the
# calls of faults.sh, and stores that stand there.

# The words that follow, with a terminal for all three files; what it shows goes to standard output.
cat >on_terminal.py <<'PYTHON'
import os, pty, sys
child, terminal = pty.fork()
if child == 0:
    os.execv(sys.argv[1], sys.argv[1:])
shown = b''
while True:
    try:
        more = os.read(terminal, 4096)
    except OSError:
        break
    if not more:
        break
    shown += more
sys.stdout.buffer.write(shown.replace(b'\r\n', b'\n'))
sys.exit(os.waitstatus_to_exitcode(os.waitpid(child, 0)[1]))
PYTHON
explain() { BTRSEND_EXPLAIN=1 timeout 20 "$program" "$@" >out 2>note; status=$?; }
on_terminal() { timeout 20 python3 on_terminal.py "$program" "$@" >shown; status=$?; }

# CASE STATUS FILE: the last run ended with this status, and FILE has the two lines of the file
# `wanted`.
explained() {
    if [ "$status" != "$2" ]; then case_is "$1" "status $status and not $2"
    elif ! cmp -s "$3" wanted; then case_is "$1" "it says '$(cat "$3")'"
    else case_is "$1" ''; fi
}

# CASE STATUS MESSAGE EXPLANATION WORDS..: the words end with this status, message and explanation.
tells() {
    name=$1 due=$2
    printf '%s\nbtrsend: %s\n' "$3" "$4" >wanted
    shift 4
    explain "$@"
    explained "$name" "$due" note
}

# CASE EXPLANATION WORDS..: the same of words that are not understood.
misunderstood() {
    name=$1 said=$2
    shift 2
    tells "$name" 2 usage "$said" "$@"
}

# ---- texts

"$program" text small >lines && sed 's/^END/end/' lines >wrong-lines || exit 2
count=$(wc -l <lines)
tells 'a text with a wrong line' 1 "refused 1 $count $(($(wc -c <lines) - 4)) 37 BadText" "wrong-lines, line $count: each line has \
to be as \`text\` prints it: all fields of the command in their order, each value in its one form, and END last" pack wrong-lines
tells 'a stream in place of a text' 1 'refused 1 1 0 37 BadText' \
    'small, line 1: this is a stream and no text: `text` prints it as one' pack small
: >no-lines
tells 'an empty text' 1 'refused 1 1 0 37 BadText' \
    'no-lines, line 1: a text begins with the line `stream 1` or `stream 2`' pack no-lines
on_terminal pack lines
printf 'output fault\nbtrsend: standard output is a terminal, and a stream is binary data: write it to a file or into a pipe\n' >wanted
explained 'no stream of a text goes to a terminal' 4 shown

# ---- files that can not be read

gone='No such file or directory (os error 2)'
tells 'a missing file' 3 'input fault' "missing: $gone; check the path" audit none missing
on_terminal audit none missing; explained 'the same on a terminal' 3 shown
tells 'a missing file of compose' 3 'input fault' "missing: $gone; check the path" compose none small missing
tells 'a guard behind the store' 3 'input fault' "guard:nodev: $gone; guards come before the store" audit none small guard:nodev
tells 'a hyphen for standard input' 3 'input fault' "-: $gone; write /dev/stdin for standard input" audit none -
tells 'a name where none may be given' 3 'input fault' \
    "name:x: $gone; only the files of audit, compose, export and receive have name: and parent: in front" dump name:x
tells 'a parent where none may be said' 3 'input fault' \
    "parent:x: $gone; only the files of audit, compose, export and receive have name: and parent: in front" \
    interleave closed-store 0 parent:x
tells 'a folder' 3 'input fault' \
    'folder: Is a directory (os error 21); it is a folder: give the files in it, in the order in which they were sent' \
    audit none folder
tells 'a file below a file' 3 'input fault' 'small/second: Not a directory (os error 20); give it again when it can be read' \
    audit none small/second
for name in once linked; do
    (exec cat m0 >once) &
    feeder=$!
    tells "a pipe that is given twice, as $name" 3 'input fault' "$name: it can be read only once; give a pipe only once" \
        audit none once $name
    kill "$feeder" 2>/dev/null; wait "$feeder" 2>/dev/null
done
printf '%s\n' 'input fault' \
    'btrsend: /dev/stdin: it can be read only once; `compose` and `squash` read each file twice: unpack it into a file first' >wanted
cat small second | { BTRSEND_EXPLAIN=1 timeout 20 "$program" compose none /dev/stdin >out 2>note; echo $? >status; }
status=$(cat status); explained 'a pipe of compose' 3 note
# Whom no right is needed from may read all, so another user tries.
: >forbidden; chmod 000 forbidden; chmod 711 .; cp -- "$program" ./program; chmod 755 program
printf '%s\n' 'input fault' \
    'btrsend: forbidden: Permission denied (os error 13); run btrsend as a user who may read it' >wanted
as_other='' ; [ "$(id -u)" != 0 ] || as_other='setpriv --reuid 65534 --regid 65534 --clear-groups'
BTRSEND_EXPLAIN=1 timeout 20 $as_other ./program audit none forbidden >out 2>note; status=$?
explained 'a file that may not be read' 3 note
printf '%s\n' 'store fault' \
    'btrsend: forbidden: Permission denied (os error 13); run btrsend as a user who may use it' >wanted
BTRSEND_EXPLAIN=1 timeout 20 $as_other ./program list forbidden >out 2>note; status=$?
explained 'a store that may not be read' 5 note

# ---- stores that can not be opened

tells 'a missing store' 5 'store fault' "nostore: $gone; \`init\` makes a store" list nostore
for word in audit compose export; do
    tells "a missing store of $word" 5 'store fault' \
        "nostore: $gone; \`init\` makes a store; without one write \`none\` in front of the files" $word nostore small
done
tells 'a store in a missing folder' 5 'store fault' "no-folder/store: $gone; make its folder first" init no-folder/store
tells 'a guard of compose' 5 'store fault' "guard:nodev: $gone; only audit, receive and interleave take guards" \
    compose guard:nodev none small
tells 'a folder as store' 5 'store fault' 'store-folder: not a regular file; a store is a regular file, which `init` makes' \
    list store-folder
(flock -x 9; tells 'a store in use' 5 'store fault' \
    'closed-store: the file is in use by another program; wait until that program has ended' list closed-store
exit "$wrong") 9<closed-store; wrong=$?

# ---- what is no store, and what is no stream

tells 'a file that is no store' 6 'not a store 0' \
    'store-other: this is no store: `init` makes a new one; if it is a stream, write `none` in front of it' list store-other
for word in audit compose export; do
    tells "$word of streams without none" 6 'not a store 0' 'small: this is a stream and no store: write `none` in front of it' \
        $word small second
done
tells 'receive of streams without a store' 6 'not a store 0' \
    'small: this is a stream and no store: `init` makes a store, and `receive` fills it' receive small second
tells 'a stream that is listed' 6 'not a store 0' \
    'small: this is a stream and no store: `init` makes a store, and `receive` fills it' list small
tells 'a store is there' 12 'store there 1' 'store-other: something is there already, and was left as it is' init store-other
tells 'a store given as a file' 1 'refused 1 1 0 1 BadMagic' \
    'closed-store, command 1: this is a store and no stream: `send` writes a snapshot of it as a stream' audit none closed-store
gzip -k -c small >packed
tells 'a compressed file' 1 'refused 2 1 0 1 BadMagic' 'packed, command 1: this is compressed: unpack it first' \
    audit none small packed
printf 'TYPE=raw\nFILE=small\nNAME=a\n' >small.info
tells 'a side file of btrbk' 1 'refused 2 1 0 1 BadMagic' \
    "small.info, command 1: this is a side file, such as btrbk's .info: leave it out" audit none small small.info
tells 'another file' 1 'refused 1 1 0 1 BadMagic' \
    "printed, command 1: this is no send stream, or it is still compressed or encrypted, or it is a store, or a side file such as btrbk's .info" \
    audit none printed
cat small printed >followed
tells 'something behind a stream' 1 'refused 1 5 123 1 BadMagic' \
    "followed, command 5: something else follows the streams in this file: cut it off with \`head -c\` at the message's third number" \
    audit none followed
head -c 100 small >split.1; tail -c +101 small >split.2
tells 'the first part of a stream that was split' 1 'refused 1 3 79 3 Truncated' \
    'split.1, command 3: the file is empty or ends inside a stream: copy it again, or send the snapshot again; if it is a part of a stream that was split, join the parts with cat first' \
    audit none split.1 split.2
tells 'two chains at once' 1 'refused 2 1 17 35 NotConsecutive' \
    'alone, command 1: this snapshot is not based on the one before it: if these are two chains, merge each alone; else leave out the streams that the last snapshot does not need' \
    compose none small alone

# ---- arguments that nearly fit

misunderstood 'a stream alone' 'a STORE comes before the files, or none if the first stream is a full one' compose small
misunderstood 'a stream alone, to be received' 'a STORE comes before the files' receive small
misunderstood 'a guard that is none' 'a guard is guard:bytes=N, guard:commands=N, guard:end=N or guard:nodev' \
    audit guard:bytes none small
misunderstood 'a command that is none' 'these arguments are not understood: --help lists the commands' merge none small

# ---- outputs

printf '%s\n' 'output fault' \
    'btrsend: standard output is a terminal, and a stream is binary data: write it to a file or into a pipe' >wanted
on_terminal compose none small second; explained 'no stream goes to a terminal' 4 shown
printf '%s\n' 'output fault' \
    'btrsend: standard output is one of the files that are read: write the stream to another file' >wanted
for word in export compose; do
    cp small itself
    timeout 20 "$program" $word none itself >>itself 2>note; status=$?
    explained "$word >> its own file ends" 4 note
    case_is "$word leaves its own file as it was" "$(cmp small itself 2>&1)"
done
for words in 'compose:2' 'compose none:2' 'send closed-store:2' 'restore:2' 'send nostore a:5' 'export nostore small:5' \
    'send store-other a:6' 'restore closed-store z:8' 'compose none missing:4'; do
    on_terminal ${words%:*}
    case_is "on a terminal another status comes first: ${words%:*}" "$([ "$status" = "${words##*:}" ] || echo "status $status")"
done
for words in 'audit none itself' 'dump itself' 'receive closed-store itself' 'interleave closed-store 0 itself'; do
    cp second itself; cp closed-store closed-before
    timeout 20 "$program" $words >>itself 2>note; status=$?
    explained "$words >> the file that is read" 4 note
    case_is "$words leaves its file as it was" "$(cmp second itself 2>&1; cmp closed-store closed-before 2>&1)"
done

# ---- parents and sources that are missing

uuid=00000000-0000-0001-0000-00000000000
no_parent='the parent snapshot is missing: give the streams in the order in which they were sent'
tells 'a missing parent' 1 'refused 1 1 17 13 NoParent' "second, command 1: $no_parent; its UUID is ${uuid}1" compose none second
explain audit none /dev/stdin <second; sed -i 's/second,/\/dev\/stdin,/' wanted
explained 'a file that is given as standard input is read again for the UUID' 1 note
sed -i 's/; its UUID.*//' wanted
cat second | BTRSEND_EXPLAIN=1 timeout 20 "$program" audit none /dev/stdin >out 2>note; status=$?
explained 'a pipe is not' 1 note
tells 'a missing source' 1 'refused 1 3 79 28 NoSource' \
    "sourceless, command 3: a clone takes its data from a snapshot that is missing: give the streams of that one first; its UUID is ${uuid}1" \
    audit none sourceless

# ---- a snapshot that was restored, and what is sent on top of it: `restored` names b's UUID, and
# the CTRANSID 11 of the copy

rm -f parents; "$program" init parents; "$program" receive parents small second >/dev/null; cp parents parents-before
meant=parent:${uuid}2:2
there="it names ${uuid}2 with CTRANSID 11; a snapshot with this UUID and CTRANSID 2 is in the store; if it is the same one, restored, put $meant before the file"
for words in 'audit parents' 'compose parents' 'export parents' 'receive parents'; do
    tells "$words: the parent was restored" 1 'refused 1 1 17 13 NoParent' "restored, command 1: $there" $words restored
    tells "$words: another number is said" 1 'refused 1 1 17 13 NoParent' "restored, command 1: $there" \
        $words parent:${uuid}2:3 restored
    case_is 'the store is as it was' "$(cmp parents parents-before 2>&1)"
done
on_terminal audit parents restored; printf '%s\n' 'refused 1 1 17 13 NoParent' "btrsend: restored, command 1: $there" >wanted
explained 'the same on a terminal' 1 shown
tells 'the source was restored' 1 'refused 1 3 79 28 NoSource' "cloning, command 3: $there" audit parents cloning
tells 'over none nothing is looked up' 1 'refused 1 1 17 13 NoParent' "restored, command 1: $no_parent; its UUID is ${uuid}2" \
    audit none restored
tells 'files in turn have no parents said' 1 'refused 1 1 17 13 NoParent' \
    "restored, command 1: $no_parent; its UUID is ${uuid}2" interleave parents 0 restored
tells 'a parent that no store has' 1 'refused 1 1 17 13 NoParent' "m5, command 1: $no_parent; its UUID is ${uuid}5" audit parents m5
tells 'streams in a wrong order, over a store that has both' 1 'refused 1 1 17 13 NoParent' \
    "third, command 1: $no_parent; its UUID is ${uuid}2" compose parents third second
case_is 'the store is as it was' "$(cmp parents parents-before 2>&1)"

run audit parents $meant restored; case_is 'audit with the parent that is meant' "$([ "$status" = 0 ] && grep -qx 'accepted 1 6' out || echo "status $status, $(cat out note)")"
run compose parents $meant restored; composed 'compose with it' restored-meant
"$program" export parents restored-meant >exported
run export parents $meant restored; composed 'export with it' exported
run audit parents $meant cloning; case_is 'a source that is meant' "$([ "$status" = 0 ] || echo "status $status, $(cat note)")"
run compose parents $meant name:e restored; composed 'a name behind the parent' restored-named
run compose parents name:e $meant restored; composed 'a name in front of it' restored-named
run compose parents parent:${uuid}1:1 $meant restored; composed 'a parent more' restored-meant
run audit parents $meant two-sources; refused 'of two UUIDs one is said' 1 'refused 1 6 250 28 NoSource'
run audit parents parent:${uuid}1:1 $meant two-sources; case_is 'of two UUIDs both are said' "$([ "$status" = 0 ] || echo "status $status, $(cat note)")"
run audit parents parent:${uuid}1:2 parent:${uuid}2:1 two-sources; refused 'of two UUIDs each has the other number' 1 'refused 1 1 17 13 NoParent'
run receive parents $meant restored; wrote 'receive with it' line-restored
run list parents; tail -n 1 out >last; cmp -s last list-restored; case_is 'list prints the parent that was meant' "$([ $? = 0 ] || echo "it prints '$(cat last)'")"
run cat parents d 4; wrote 'the file that was cloned' bytes-two
run receive parents after; wrote 'the next stream needs no parent' line-after

misunderstood 'a parent behind the last file' 'name:NEW and parent:UUID:CTRANSID come before the file that they are for' \
    audit parents restored $meant
wrong_form='after parent: write a UUID and a CTRANSID as `list` prints a PARENT: small letters, hyphens, a colon and a number'
for word in parent: parent:b parent:${uuid}2 parent:${uuid}2: parent:${uuid}2:x parent:${uuid}2:02 parent:${uuid}2:-1 \
    parent:${uuid}2:18446744073709551616 parent:ABCDEF00-0000-0001-0000-000000000002:2 parent:${uuid}:2 \
    parent:00000000000000010000000000000002:2 "parent:${uuid}2 2" "parent:escaped:${uuid}2:2"; do
    misunderstood "the word $word" "$wrong_form" audit parents "$word" restored
done
once='in front of one file there can be one name:NEW, and one parent: for each UUID'
misunderstood 'a UUID twice' "$once" audit parents $meant parent:${uuid}2:3 restored
misunderstood 'the same parent twice' "$once" audit parents $meant name:e $meant restored
misunderstood 'two names' "$once" audit parents name:e name:f restored
run audit parents parent:${uuid}1:1 second $meant restored; refused 'a UUID in front of two files' 1 'refused 1 1 17 11 NameThere'

# ---- snapshots that are unfinished

rm -f begun; "$program" init begun; "$program" receive begun damaged-full >/dev/null 2>&1
for word in show send restore; do
    tells "$word of an unfinished snapshot" 8 'missing a' \
        'this snapshot is unfinished: `drop` it, and receive its stream again' $word begun a
done
tells 'cat of an unfinished snapshot' 8 'missing a' 'this snapshot is unfinished: `drop` it, and receive its stream again' cat begun a 1
tells 'an unfinished snapshot in its escaped form' 8 'missing a' \
    'this snapshot is unfinished: `drop` it, and receive its stream again' show begun escaped:a
tells 'a snapshot that is not there' 8 'missing z' '`list` and `show` print the names that there are' show begun z
"$program" receive begun alone >/dev/null
tells 'a path with the name of an unfinished snapshot' 8 'missing a' '`list` and `show` print the names that there are' \
    cat begun alone a
tells 'a parent that is unfinished' 1 'refused 1 1 17 13 NoParent' \
    'second, command 1: the snapshot that it names is unfinished in the store: `drop` it, and receive its stream again' \
    audit begun second

# ---- names for the parts of files

tells 'the file is named and not the word in front of it' 1 'refused 2 1 17 10 BadName' \
    'second, command 1: the name of the snapshot is not valid: write name:NEW in front of the file, with a valid name' \
    audit none small name:. second
tells 'a missing parent of a file with a name' 1 'refused 1 1 17 13 NoParent' \
    "second, command 1: $no_parent; its UUID is ${uuid}1" audit none name:other second
misunderstood 'a name behind the last file' 'name:NEW and parent:UUID:CTRANSID come before the file that they are for' \
    audit none small name:other
printf '%s\n' 'output fault' \
    'btrsend: standard output is one of the files that are read: write the stream to another file' >wanted
cp small itself
for word in compose export; do
    timeout 20 env BTRSEND_EXPLAIN=1 "$program" $word none name:other itself >>itself 2>note; status=$?
    explained "a file with a name is not written to itself by $word" 4 note
    timeout 20 env BTRSEND_EXPLAIN=1 "$program" $word none $meant itself >>itself 2>note; status=$?
    explained "nor one with a parent" 4 note
done
cp small name:x; cp small parent:x
for name in name:x parent:x; do
    timeout 20 "$program" audit none ./$name >out 2>note; status=$?
    case_is "a file that is called $name" "$([ "$status" = 0 ] || echo "status $status")"
done
timeout 20 "$program" audit none name:1 small name:2 second >out 2>note; status=$?
case_is 'a chain with names' "$([ "$status" = 0 ] && grep -q '^accepted 2 ' out || echo "status $status, $(cat out note)")"
timeout 20 "$program" export none name:1 small name:2 second >exported 2>note; status=$?
case_is 'it is exported with them' "$([ "$status" = 0 ] || echo "status $status, $(cat note)")"
rm -f named
timeout 20 "$program" init named >out 2>note
timeout 20 "$program" receive named exported >out 2>note; status=$?
case_is 'what was exported has the names' "$([ "$status" = 0 ] && [ "$(sed 's/^complete \([^ ]*\) .*/\1/' out | tr '\n' ' ')" = '1 2 ' ] || echo "status $status, $(cat out note)")"

# ---- names that are no text

rm -f names
timeout 20 "$program" init names >out 2>note
timeout 20 "$program" receive names 'name:escaped:\xff\x20' small >out 2>note; status=$?
case_is 'a name that is no text is given' "$([ "$status" = 0 ] && grep -q '^complete \\xff\\x20 ' out || echo "status $status, $(cat out note)")"
timeout 20 "$program" show names 'escaped:\xff\x20' >out 2>note; status=$?
case_is 'it is asked for as it is printed' "$([ "$status" = 0 ] && grep -q '^subvol \\xff\\x20 ' out || echo "status $status, $(cat out note)")"
timeout 20 "$program" drop names 'escaped:\xff' >out 2>note; status=$?
case_is 'another is not there' "$([ "$status" = 8 ] && [ "$(cat note)" = 'missing \xff' ] || echo "status $status, $(cat note)")"
no_form='after escaped: write a name as `list` and `show` print it: a backslash, x and two of 0-9 a-f for each byte that is not visible'
misunderstood 'a word that list never prints' "$no_form" show names 'escaped:\xFF'
misunderstood 'a new name that list never prints' "$no_form" compose none name:escaped:a\ b small
