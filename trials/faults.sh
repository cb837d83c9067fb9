#!/bin/sh
# Tries the whole program against real faults: outputs that are full, closed or cut off, files that
# can not be read, that are pipes, or that change between two readings, short reads and short
# writes, many words and strange ones; and against stores that are missing, in use, damaged, or
# whose file fails. And its explanations, and what is said in front of files: explained.sh, which is
# read here. Most cases are of `compose`, and some of each other word. The program is the first
# word, or else the one that this repository has built; nothing is proved or built here. It prints a
# line for each case, and ends with status 0 only where all are right. Needs python3, which makes
# the streams, and gcc.
here=$(CDPATH='' cd -- "$(dirname -- "$0")" && pwd) || exit 2
program=$1
. "$here/begin.sh"
cd -- "$folder" || exit 2

# The streams, and what chains of them are composed into. `first` has about a million bytes, so that
# the program writes while it still reads; the others are small.
python3 - <<'PYTHON' || exit 2
import os
import struct

TABLE = []
for entry in range(256):
    for bit in range(8):
        entry = (entry >> 1) ^ (0x82F63B78 if entry & 1 else 0)
    TABLE.append(entry)

def checksum(data):
    sum = 0
    for byte in data:
        sum = (sum >> 8) ^ TABLE[(sum ^ byte) & 255]
    return sum

NUMBERS = dict(uuid=1, ctransid=2, ino=3, path=15, offset=18, data=19, clone_uuid=20, clone_ctransid=21, clone_path=22,
               clone_offset=23, clone_len=24)

def command(number, **values):
    body = b''
    for name, value in values.items():
        value = struct.pack('<Q', value) if isinstance(value, int) else value
        body += struct.pack('<HH', NUMBERS[name], len(value)) + value
    front = struct.pack('<IH', len(body), number)
    return front + struct.pack('<I', checksum(front + bytes(4) + body)) + body

HEADER = b'btrfs-stream\0' + struct.pack('<I', 1)
END = command(21)

def uuid(number):
    return struct.pack('>QQ', 1, number)

def full(name, number, edits):
    return HEADER + command(1, uuid=uuid(number), ctransid=number, path=name) + edits + END

def later(name, number, edits):
    head = command(2, uuid=uuid(number), ctransid=number, path=name, clone_uuid=uuid(number - 1), clone_ctransid=number - 1)
    return HEADER + head + edits + END

def file(path, *pieces):
    writes = [command(15, path=path, offset=49152 * at, data=piece) for at, piece in enumerate(pieces)]
    return command(3, path=path) + b''.join(writes)

def put(name, data):
    with open(name, 'wb') as out:
        out.write(data)

long = file(b'long', *(bytes([65 + at]) * 49152 for at in range(20)))
one, two, three, other = file(b'1', b'one'), file(b'2', b'two'), file(b'3', b'three'), file(b'2', b'other')
second = later(b'b', 2, two)
put('end', END)
put('receivable', full(b'a', 1, command(3, ino=0, path=b'1') + command(15, path=b'1', offset=0, data=b'one')))
put('printed', b'''stream 1
1 17 SUBVOL uuid=00000000-0000-0001-0000-000000000001 ctransid=1 path=a
2 64 MKFILE path=1
3 79 WRITE path=1 offset=0 data=3
4 113 END
''')
put('first', full(b'a', 1, long))
put('small', full(b'a', 1, one))
put('second', second)
put('third', later(b'c', 3, three))
put('same-head', later(b'b', 2, other))
put('other-head', later(b'd', 2, other))
damaged = second[:-11] + b'!' + second[-10:]
put('damaged', damaged)
stored, = struct.unpack('<I', damaged[117:121])
put('damaged-note', b'refused 1 3 111 5 BadChecksum %08x %08x\n' % (stored, checksum(damaged[111:117] + bytes(4) + damaged[121:145])))
put('small-second', full(b'b', 2, one + two))
put('first-second', full(b'b', 2, long + two))

# What is sent on top of a restored `b`, which has its UUID and the CTRANSID 11; the same as it is
# meant; with a name; and a full stream that clones from it. `two-sources` clones from a restored
# `a` too, and `after` is what is sent next.
def on_restored(name, ctransid, clones=b''):
    head = command(2, uuid=uuid(7), ctransid=12, path=name, clone_uuid=uuid(2), clone_ctransid=ctransid)
    return HEADER + head + three + command(3, path=b'4') + clone_of(2, ctransid, b'2') + clones + END

def clone_of(number, ctransid, path):
    return command(16, path=b'4', offset=0, clone_uuid=uuid(number), clone_ctransid=ctransid, clone_path=path, clone_offset=0, clone_len=3)

put('restored', on_restored(b'd', 11))
put('restored-meant', on_restored(b'd', 2))
put('restored-named', on_restored(b'e', 2))
put('two-sources', on_restored(b'd', 11, clone_of(1, 10, b'1')))
put('cloning', full(b'f', 8, command(3, path=b'4') + clone_of(2, 11, b'2')))
put('after', HEADER + command(2, uuid=uuid(9), ctransid=13, path=b'g', clone_uuid=uuid(7), clone_ctransid=12) + END)
put('line-restored', b'complete d 00000000-0000-0001-0000-000000000007 12\n')
put('list-restored', b'd 00000000-0000-0001-0000-000000000007 12 complete 00000000-0000-0001-0000-000000000002:2\n')
put('line-after', b'complete g 00000000-0000-0001-0000-000000000009 13\n')
put('bytes-two', b'two')

# A full stream beside the others, and one that is damaged behind its head.
put('alone', full(b'alone', 20, one))
put('damaged-full', full(b'a', 1, one)[:-11] + b'!' + END)
put('first-third', full(b'c', 3, long + two + three))
put('first-same-head', full(b'b', 2, long + other))
put('first-other-head', full(b'd', 2, long + other))

# The last command of `taker` is a clone of the first's file, whose data begin at place 110 of
# `donor`.
given = bytes(range(250)) * 80
clone = dict(offset=0, clone_uuid=uuid(1), clone_ctransid=1, clone_path=b'1', clone_offset=0, clone_len=len(given))
put('sourceless', full(b'c', 3, file(b'2') + command(16, path=b'2', **clone)))
put('donor', full(b'a', 1, file(b'1', given)))
put('taker', later(b'b', 2, long + file(b'2') + command(16, path=b'2', **clone)))
put('donor-taker', full(b'b', 2, file(b'1', given) + long + file(b'2', given)))

# A file that is cloned onto its own end until it has 2^50 runs and 2^62 bytes, and a later part
# that clones all of it.
doubled, length = [command(3, path=b'1'), command(15, path=b'1', offset=0, data=bytes(4096))], 4096
own = dict(clone_uuid=uuid(1), clone_ctransid=1, clone_path=b'1', clone_offset=0)
for _ in range(50):
    doubled.append(command(16, path=b'1', offset=length, clone_len=length, **own))
    length *= 2
put('doubled', full(b'a', 1, b''.join(doubled)))
put('whole-cloned', later(b'b', 2, file(b'2') + command(16, path=b'2', offset=0, clone_len=length, **own)))

files = [file(b'%d' % number, b'%d' % number) for number in range(3000)]
put('m0', full(b's0', 1, files[0]))
for number in range(1, 3000):
    put('m%d' % number, later(b's%d' % number, number + 1, files[number]))
put('many', full(b's2999', 3000, b''.join(files)))

# Twenty thousand small files whose names are long and alike.
os.mkdir('alike' * 9)
for number in range(20000):
    part = later(b't%d' % number, number + 1, b'') if number else full(b't0', 1, b'')
    put('alike' * 9 + '/%05d' % number, part)
PYTHON

# Stands between the program and its C library. With SHORT reads and writes move at most so many
# bytes a call; the call whose number is FAIL_READ or FAIL_WRITE fails.
gcc -O2 -shared -fPIC -o faults.so -x c - <<'C' || exit 2
#include <errno.h>
#include <stdlib.h>
#include <sys/syscall.h>
#include <unistd.h>

static long word(const char *name) { return getenv(name) ? atol(getenv(name)) : 0; }

static size_t at_most(size_t len) {
    size_t most = (size_t)word("SHORT");
    return most > 0 && most < len ? most : len;
}

ssize_t read(int file, void *bytes, size_t len) {
    static long calls;
    if (++calls == word("FAIL_READ")) {
        errno = EIO;
        return -1;
    }
    return syscall(SYS_read, file, bytes, at_most(len));
}

ssize_t write(int file, const void *bytes, size_t len) {
    static long calls;
    if (++calls == word("FAIL_WRITE")) {
        errno = ENOSPC;
        return -1;
    }
    return syscall(SYS_write, file, bytes, at_most(len));
}

ssize_t __write(int file, const void *bytes, size_t len) { return write(file, bytes, len); }

ssize_t pread(int file, void *bytes, size_t len, off_t at) {
    static long calls;
    if (++calls == word("FAIL_PREAD")) {
        errno = EIO;
        return -1;
    }
    return syscall(SYS_pread64, file, bytes, at_most(len), at);
}

ssize_t pwrite(int file, const void *bytes, size_t len, off_t at) {
    static long calls;
    if (++calls == word("FAIL_PWRITE")) {
        errno = ENOSPC;
        return -1;
    }
    return syscall(SYS_pwrite64, file, bytes, at_most(len), at);
}

int fdatasync(int file) {
    static long calls;
    if (++calls == word("FAIL_SYNC")) {
        errno = EIO;
        return -1;
    }
    return syscall(SYS_fdatasync, file);
}
C
mkdir kept && cp small first second third damaged donor taker kept || exit 2

wrong=0
case_is() {
    [ -z "$2" ] && { echo "right  $1"; return; }
    echo "WRONG  $1: $2"
    wrong=$((wrong + 1))
}

# The program with the given words, what it writes in out and note, and its status in $status.
run() {
    timeout 20 "$program" "$@" >out 2>note
    status=$?
}

# What is wrong about a whole stream in out, where the status is not 0.
cut() {
    [ "$status" = 0 ] || ! tail -c 10 out | cmp -s - end || echo "status $status, and yet a whole stream"
}

# CASE STATUS NOTE: the last run ended with this status and this line on standard error, and left no
# whole stream.
refused() {
    if [ "$status" != "$2" ]; then case_is "$1" "status $status and not $2"
    elif [ "$(cat note)" != "$3" ]; then case_is "$1" "the note is '$(cat note)' and not '$3'"
    else case_is "$1" "$(cut)"; fi
}

# CASE STREAM: the last run ended with status 0 and this stream, and nothing on standard error.
composed() {
    if [ "$status" != 0 ]; then case_is "$1" "status $status: $(cat note)"
    elif [ -s note ]; then case_is "$1" "there is a note: $(cat note)"
    elif ! cmp -s out "$2"; then case_is "$1" "status 0 and a wrong stream"
    else case_is "$1" ''; fi
}

# CASE STREAM..: the last run ended with status 0 and one of these streams, or refused its files and
# left no whole stream.
never_wrong() {
    name="$1, status $status"; shift
    case $status in
    0)
        for stream in "$@"; do cmp -s out "$stream" && { case_is "$name" ''; return; }; done
        case_is "$name" "a wrong stream"
        ;;
    1 | 3) case_is "$name" "$(cut)" ;;
    *) case_is "$name" "it has to be 0, 1 or 3" ;;
    esac
}

# ---- without a fault

run compose none small second; composed 'a chain' small-second
run compose none first second third; composed 'a long chain' first-third
(ulimit -n 24; timeout 20 "$program" compose none $(seq -f m%g 0 2999) >out 2>note); status=$?
composed '3000 files, of which 24 may be open' many
run compose none doubled whole-cloned; refused '2^62 bytes in 2^50 runs that would be written anew' 9 "too much $((1 << 62))"

# ---- words

run; refused 'no words' 2 usage
run compose; refused 'no store' 2 usage
run compose none; refused 'no files' 2 usage
run --help --version; refused 'two words' 2 usage
for words in 'audit none' 'audit guard:bytes none small' 'audit guard:nodev' 'dump' 'dump small second' \
    'text' 'text small second' 'pack' 'pack small second' \
    'export' 'export small' 'export none' 'gen 1' 'gen 0 1' 'gen 4097 1' 'gen 1 18446744073709551616' 'gen 1 x' \
    'trial 1' 'trial 0 1' 'trial 4097 1' \
    'init' 'init one two' 'receive' 'receive some' 'receive guard:bytes some small' 'list' \
    'list some small' 'show some' 'cat some a' 'drop some' 'scrub' 'scrub guard:nodev some'; do
    run $words; refused "the words $words" 2 usage
done
run ''; refused 'an empty word' 2 usage
run "$(printf '\377')"; refused 'a word that is not UTF-8' 2 usage
run compose none "$(printf 'small\377')"; refused 'a file whose name is not UTF-8' 2 usage
run $(seq 1 20000); refused '20,000 words' 2 usage

# ---- outputs. The device /dev/full is always full, and a limit of two blocks lets the first bytes
# through.

: >out
mkfifo nobody || exit 2
for chain in 'small second' 'first second'; do
    timeout 20 "$program" compose none $chain >/dev/full 2>note; status=$?
    refused "a full device, $chain" 4 'output fault'
    timeout 20 "$program" compose none $chain 2>note >&-; status=$?
    refused "a closed output, $chain" 4 'output fault'
    timeout 20 "$program" compose none $chain 2>note 1<third; status=$?
    refused "an output that is open for reading, $chain" 4 'output fault'
    # The only reader is gone before the program begins.
    exec 3<>nobody 4>nobody 3>&-
    timeout 20 "$program" compose none $chain >&4 2>note; status=$?
    exec 4>&-
    refused "an output that nobody reads, $chain" 4 'output fault'
done
(trap '' XFSZ; ulimit -f 2; exec timeout 20 "$program" compose none first second >out 2>note); status=$?
refused 'an output that is full in its middle' 4 'output fault'
: >out
for word in --help --version; do
    timeout 20 "$program" $word >/dev/full 2>note; status=$?
    refused "a full device, $word" 4 'output fault'
    timeout 20 "$program" $word 2>note >&-; status=$?
    refused "a closed output, $word" 4 'output fault'
done
: >note
timeout 20 "$program" compose none damaged >out 2>/dev/full; status=$?
refused 'a refusal, and the note fails' 1 ''
timeout 20 "$program" compose none damaged >out 2>&-; status=$?
refused 'a refusal, and standard error is closed' 1 ''

# ---- the other words, whose files are read once

# CASE TEXT: the last run ended with status 0 and this text, and nothing on standard error.
wrote() { printf '%s\n' "$2" >text; composed "$1" text; }

small='accepted 2 8'
run audit none small second; wrote 'audit' "$small"
(cat small second | timeout 20 "$program" audit none /dev/stdin >out 2>note); status=$?
wrote 'audit of a pipe' "$small"
run audit guard:bytes=6 guard:commands=8 guard:nodev guard:end=3 none small second; wrote 'audit at its limits' "$small"
run audit guard:bytes=5 none small second; refused 'audit, too many bytes' 1 'refused 2 3 111 33 Guarded 0 3'
run audit guard:nodev guard:commands=7 none small second; refused 'audit, too many commands' 1 'refused 2 4 145 33 Guarded 1 7'
run audit guard:end=2 none small second; refused 'audit, too far an end' 1 'refused 1 3 79 33 Guarded 0 0'
run audit none second; refused 'audit without the first stream' 1 'refused 1 1 17 13 NoParent'
case_is 'audit of what is refused writes nothing' "$([ ! -s out ] || echo 'it wrote something')"
run dump small; composed 'dump' printed
run export none small; composed 'export' receivable
(timeout 20 "$program" dump /dev/stdin <small >out 2>note); status=$?
composed 'dump of standard input' printed
(cat small | timeout 20 "$program" export none /dev/stdin >out 2>note); status=$?
composed 'export of a pipe' receivable
head -c 113 small >shorter
run dump shorter; refused 'dump of a file that is cut' 1 'refused 1 4 113 3 Truncated'
head -n 4 printed | cmp -s - out; case_is 'dump prints what it can' "$([ $? = 0 ] || echo 'it printed something else')"
run text small; mv out small-text; case_is 'text' "$([ "$status" = 0 ] && [ ! -s note ] || echo "status $status")"
run pack small-text; composed 'pack of the text' small
(cat small-text | timeout 20 "$program" pack /dev/stdin >out 2>note); status=$?
composed 'pack of a pipe' small
run text shorter; refused 'text of a file that is cut' 1 'refused 1 4 113 3 Truncated'
head -n 4 small-text | cmp -s - out; case_is 'text prints what it can' "$([ $? = 0 ] || echo 'it printed something else')"
head -n 4 small-text >text-shorter
run pack text-shorter; refused 'pack of a text that is cut' 1 "refused 1 5 $(wc -c <text-shorter) 37 BadText"
head -c 113 small | cmp -s - out; case_is 'pack writes what it can' "$([ $? = 0 ] || echo 'it wrote something else')"
run export none second; refused 'export without the first stream' 1 'refused 1 1 17 13 NoParent'
run export none first damaged; refused 'export of a damaged file' 1 "$(sed 's/^refused 1/refused 2/' damaged-note)"
for words in 'audit none small' 'dump small' 'text small' 'pack small-text' 'export none small' 'squash none small' 'gen 3 1' \
    'trial 3 1'; do
    : >out
    timeout 20 "$program" $words >/dev/full 2>note; status=$?
    refused "a full device, $words" 4 'output fault'
    timeout 20 "$program" $words 2>note >&-; status=$?
    refused "a closed output, $words" 4 'output fault'
done
for words in 'audit none' 'dump' 'text' 'pack' 'export none' 'squash none'; do
    run $words missing; refused "a missing file, $words" 3 'input fault'
done
run gen 4096 1; case_is 'the longest chain' "$([ "$status" = 0 ] && [ ! -s note ] || echo "status $status")"
run trial 4096 1
echo 'trial 4096 24588 17992809 34079076 0 16773120' | cmp -s - out; case_is 'a trial of the longest chain' "$([ $? = 0 ] || echo 'other numbers')"

# ---- files

mkdir folder && ln -s loop loop && : >empty && mkfifo fifo || exit 2
run compose none missing; refused 'a missing file' 3 'input fault'
run compose none small missing; refused 'a missing second file' 3 'input fault'
run compose none ''; refused 'a file without a name' 3 'input fault'
run compose none folder; refused 'a folder' 3 'input fault'
run compose none small folder; refused 'a folder as second file' 3 'input fault'
run compose none small/second; refused 'a file below a file' 3 'input fault'
run compose none loop; refused 'a link to itself' 3 'input fault'
run compose none empty; refused 'an empty file' 1 'refused 1 1 0 3 Truncated'
run compose none /dev/null; refused 'the empty device' 1 'refused 1 1 0 3 Truncated'
run compose none /dev/zero; refused 'a device without end' 1 'refused 1 1 0 1 BadMagic'
run compose none small small; refused 'the same file twice' 1 'refused 2 1 17 11 NameThere'

# A pipe gives its bytes once, and each file is read twice. The second feeder waits until the first
# reading is over.
(exec cat small second >fifo) &
first=$!
run compose none fifo
refused 'a named pipe' 3 'input fault'
kill "$first" 2>/dev/null; wait
(exec cat second >fifo) &
first=$!
(sleep 1; exec cat second >fifo) &
second=$!
run compose none small fifo
never_wrong 'a named pipe as second file, fed twice' small-second
kill "$first" "$second" 2>/dev/null; wait
cat small second | { timeout 20 "$program" compose none /dev/stdin >out 2>note; echo $? >status; }
status=$(cat status)
refused 'standard input, a pipe' 3 'input fault'
: >out
cat small | { timeout 20 "$program" squash none /dev/stdin >out 2>note; echo $? >status; }
status=$(cat status)
refused 'squash of standard input, a pipe' 3 'input fault'
: >out
cat second | { timeout 20 "$program" compose none small /dev/stdin >/dev/full 2>note; echo $? >status; }
status=$(cat status)
refused 'standard input, a pipe, and a full device' 3 'input fault'

# A pipe is opened once. Its second opening would wait for ever, since who wrote into it is gone: it
# is a fault at once, by every name and also where the pipe was closed for 16 other files.
mkfifo once && ln once linked && ln -s once pointing || exit 2

# WORD..: the last run, while the first stream of the long chain is written into the pipe once.
fed() {
    (exec cat m0 >once) &
    feeder=$!
    run "$@"
    kill "$feeder" 2>/dev/null; wait "$feeder" 2>/dev/null
}
others=$(seq -f m%g 1 16)
fed audit none once $others; wrote '17 files, the first of them a pipe' 'accepted 17 68'
fed audit none once $others once; refused 'the same with the pipe once more behind them' 3 'input fault'
fed audit none once once; refused 'a pipe given twice' 3 'input fault'
for name in linked pointing ./once; do
    fed audit none once $name; refused "a pipe given twice, as $name" 3 'input fault'
    fed audit none once $others $name; refused "a pipe given twice, as $name behind 16 files" 3 'input fault'
done
fed compose none once $others; refused '17 files that are read twice, the first of them a pipe' 3 'input fault'

# ---- many files

run audit none $(seq -f "$(printf 'alike%.0s' 1 2 3 4 5 6 7 8 9)/%05.0f" 0 19999)
wrote '20,000 files' 'accepted 20000 40000'
# The least of three times each.
case_is 'a file of 20,000 takes no longer than one of 2,000' "$(python3 - "$program" <<'PYTHON'
import subprocess
import sys
import time

names = ['alike' * 9 + '/%05d' % number for number in range(20000)]

def least(count):
    times = []
    for _ in range(3):
        began = time.monotonic()
        subprocess.run([sys.argv[1], 'audit', 'none'] + names[:count], check=True, stdout=subprocess.DEVNULL, timeout=60)
        times.append(time.monotonic() - began)
    return min(times)

few, many = least(2000), least(20000)
if many > 30 * few:
    print('%.2f seconds for 2,000, and %.2f for 20,000' % (few, many))
PYTHON
)"

# ---- files that change between the readings

# CHANGE FILE..: once the program begins to write, and so is in its second reading, and waits for
# its output to be read, CHANGE is run. The file `first` is longer than what it has read then.
changing() {
    change=$1; shift
    rm -f pipe && mkfifo pipe || exit 2
    timeout 20 "$program" compose none "$@" >pipe 2>note &
    started=$!
    exec 3<pipe
    dd bs=1 count=1 <&3 >out 2>/dev/null
    eval "$change"
    cat <&3 >>out
    exec 3<&-
    wait "$started"
    status=$?
}

new() { rm -rf file; cat "$@" >file; }
new second; changing 'printf x >>file' first file
refused 'a file that grows by a byte' 1 'refused 2 5 155 3 Truncated'
new second; changing 'cat third >>file' first file
never_wrong 'a file that grows by a stream' first-second first-third
new first; changing 'cat second >>file' file
never_wrong 'the only file grows by a stream' first first-second
new second; changing 'truncate -s -5 file' first file
refused 'a file that shrinks by five bytes' 1 'refused 2 4 145 3 Truncated'
new second; changing ': >file' first file
refused 'a file that shrinks to nothing' 1 'refused 2 1 0 3 Truncated'
new first; changing 'truncate -s 500000 file' file
refused 'the only file shrinks to its half' 1 'refused 1 13 491942 3 Truncated'
new second third; changing 'truncate -s "$(wc -c <second)" file' first file
never_wrong 'a file that shrinks by a stream' first-second first-third
new second; changing 'cat same-head >file' first file
never_wrong 'a file that gets other data' first-second first-same-head
new second; changing 'cat other-head >file' first file
never_wrong 'a file that gets another head' first-second first-other-head
new second; changing 'cat damaged >file' first file
never_wrong 'a file that is damaged' first-second
new second; changing 'rm file' first file
never_wrong 'a file that is removed' first-second
new second; changing 'rm file; mkdir file' first file
never_wrong 'a file that becomes a folder' first-second
rm -rf file

# ---- files that change before a clone takes bytes of them, which are read a third time then

run compose none donor taker; composed 'a chain with a clone from the part before' donor-taker
new donor; changing 'sleep 1; truncate -s 10000 file' file taker
refused 'a file that shrinks, and a clone takes bytes of it' 13 'input changed 1 10000'
new donor; changing 'sleep 1; truncate -s 110 file' file taker
refused 'a file that shrinks to where the bytes of a clone begin' 13 'input changed 1 110'
new donor; changing 'sleep 1; : >file' file taker
refused 'a file that shrinks to nothing, and a clone takes bytes of it' 13 'input changed 1 110'
new donor; changing 'sleep 1; truncate -s -1 file' file taker
composed 'a file that shrinks behind the bytes of a clone' donor-taker
new donor; changing 'sleep 1; rm file' file taker
composed 'a file that is removed while it is open, and a clone takes bytes of it' donor-taker
rm -rf file

# ---- reads and writes that move few bytes, and that fail in their middle

short() {
    timeout 60 env LD_PRELOAD=./faults.so "$@" >out 2>note
    status=$?
}

short SHORT=1 "$program" compose none small second; composed 'one byte for each read and write' small-second
short SHORT=777 "$program" compose none first second; composed '777 bytes for each read and write' first-second

# VARIABLE STATUS NOTE: each call fails once, up to the number that no run reaches.
each_fails() {
    call=1
    while :; do
        short "$1=$call" "$program" compose none first second
        [ "$status" = 0 ] && break
        [ "$status" = "$2" ] && [ "$(cat note)" = "$3" ] && [ -z "$(cut)" ] || break
        call=$((call + 1))
    done
    if [ "$call" = 1 ]; then case_is "$1" "the first call that fails gives status $status"; return; fi
    composed "each of $((call - 1)) calls fails once, $1" first-second
}
each_fails FAIL_READ 3 'input fault'
each_fails FAIL_WRITE 4 'output fault'

# ---- stores

# CASE FILE: the last run ended with status 0, wrote what the file has, and nothing on standard
# error.
wrote() {
    if [ "$status" != 0 ]; then case_is "$1" "status $status: $(cat note)"
    elif [ -s note ]; then case_is "$1" "there is a note: $(cat note)"
    elif ! cmp -s out "$2"; then case_is "$1" "it wrote '$(cat out)'"
    else case_is "$1" ''; fi
}

: >empty
a='a 00000000-0000-0001-0000-000000000001 1'
b='b 00000000-0000-0001-0000-000000000002 2'
printf 'complete %s\n' "$a" >line-a
printf 'complete %s\ncomplete %s\n' "$a" "$b" >lines
printf '%s complete -\n%s complete %s:1\n' "$a" "$b" 00000000-0000-0001-0000-000000000001 >list-both
printf '%s unfinished -\n' "$a" >list-begun
printf 'accepted 1 4\n' >accepted
printf 'one' >bytes
mkdir store-folder && mkfifo store-pipe && printf 'x' >store-other || exit 2
for words in 'list missing' 'receive missing small' 'audit missing small' 'list store-folder' 'init store-folder' 'list store-pipe' \
    'receive store-pipe small' 'init no-folder/store' 'compose missing small' 'export missing small' 'compose store-pipe small' \
    'compose guard:nodev none small'; do
    run $words; refused "a store that can not be opened: $words" 5 'store fault'
done
run list store-other; refused 'a file that is no store' 6 'not a store 0'
run init store-other; refused 'init over a file' 12 'store there 1'
truncate -s 1100G store-zeros; run list store-zeros; refused 'a file of 2^40 zeros and more that is no store' 6 'not a store 0'; rm store-zeros
run init store-long; truncate -s 1100G store-long; run list store-long; wrote 'a store with 2^40 zeros and more behind it' empty
run receive store-long small second; wrote 'which receives' lines
run list store-long; wrote 'and has what it received' list-both; rm store-long
run init store; wrote 'a store is made' empty
run init store; refused 'a store is there' 12 'store there 21'
run receive store small second; wrote 'a chain is received' lines
run list store; wrote 'it is listed' list-both
run cat store b 1; wrote 'a file of it' bytes
run show store c; refused 'a name that is not there' 8 'missing c'
run cat store a 2; refused 'a path that is not there' 8 'missing 2'
run receive store small; refused 'a stream is received twice' 1 'refused 1 1 17 11 NameThere'
cp store store-before
run compose store second; composed 'a stream over a store that has its parent, and itself' second
run compose store m5; refused 'composing with a stream left out' 1 'refused 1 1 17 13 NoParent'
run export store m5; refused 'exporting with a stream left out' 1 'refused 1 1 17 13 NoParent'
run compose store-other small; refused 'composing over a file that is no store' 6 'not a store 0'
(flock -x 9; run compose store second; refused 'composing over a store that is written to' 5 'store fault'; exit "$wrong") 9<store; wrong=$?
cmp -s store store-before && case_is 'and the store is as it was' '' || case_is 'and the store is as it was' 'it was changed'
run audit store m5; refused 'a chain with a stream left out' 1 'refused 1 1 17 13 NoParent'
(flock -x 9; run list store; refused 'a store that is written to' 5 'store fault'; exit "$wrong") 9<store; wrong=$?
(flock -s 9; run receive store third; refused 'a store that is read' 5 'store fault'; run list store; wrote 'two that read' list-both; exit "$wrong") 9<store
wrong=$?
run receive store kept; refused 'an input that fails' 3 'input fault'
cmp -s store store-before && case_is 'the store is as it was' '' || case_is 'the store is as it was' 'it was changed'
size=$(wc -c <store)
truncate -s $((size - 1)) store
run list store; refused 'a store that was cut' 6 'not a store 5'
cp store-before store
printf 'z' | dd of=store bs=1 seek=$((size - 20)) conv=notrunc status=none
run list store; refused 'a store with a changed byte' 6 'not a store 4'
run scrub store; [ "$status" = 14 ] && case_is 'scrub finds it' '' || case_is 'scrub finds it' "status $status"
rm store; run init store
(trap '' XFSZ; ulimit -f 1; timeout 20 "$program" receive store first >out 2>note); status=$?
refused 'the file of a store may not grow' 5 'store fault'
run list store; wrote 'and the store can be opened' list-begun
rm store; run init store
run receive store small </dev/null; (timeout 20 "$program" receive store second >/dev/full 2>note); status=$?; : >out
refused 'the output is full, and the store goes on' 4 'output fault'
run list store; wrote 'what it received' list-both

# VARIABLE: each call fails once. A receive that does not end with 0 leaves a store that can be
# opened, with each part that was acknowledged, and goes on where that one stopped.
each_store_fails() {
    call=1
    while :; do
        rm -f store; "$program" init store
        short "$1=$call" "$program" receive store small second
        [ "$status" = 0 ] && break
        if [ "$status" != 5 ] || [ "$(cat note)" != 'store fault' ]; then break; fi
        lines=$(wc -l <out)
        run list store
        if [ "$status" != 0 ] || [ "$(grep -c ' complete ' out)" -lt "$lines" ]; then status=9; break; fi
        grep ' unfinished ' out | while read -r name rest; do "$program" drop store "$name"; done
        grep -q '^a .* complete' out || "$program" receive store small >/dev/null
        grep -q '^b .* complete' out || "$program" receive store second >/dev/null
        run list store
        cmp -s out list-both || { status=9; break; }
        call=$((call + 1))
    done
    if [ "$call" = 1 ]; then case_is "$1" "the first call that fails gives status $status"; return; fi
    wrote "each of $((call - 1)) calls to the store's file fails once, $1" lines
}
rm -f store; "$program" init store
short SHORT=5 "$program" receive store small second; wrote 'five bytes for each read and write of a store' lines
cmp -s store store-before && case_is 'which is the same then' '' || case_is 'which is the same then' 'it is another'
each_store_fails FAIL_PWRITE
each_store_fails FAIL_SYNC
each_store_fails FAIL_PREAD

# Each read of a store fails once while a chain is composed over it.
rm -f store; "$program" init store; "$program" receive store small >/dev/null
call=1
while [ $call -lt 100 ]; do
    short "FAIL_PREAD=$call" "$program" compose store second
    if [ "$status" != 5 ] || [ "$(cat note)" != 'store fault' ]; then break; fi
    [ -z "$(cut)" ] || break
    call=$((call + 1))
done
composed "each of $((call - 1)) reads of a store fails once while composing" second

# ---- a file of 2^50 runs, and a reader that goes away

rm -f doubled-store; "$program" init doubled-store
run receive doubled-store doubled; case_is 'a file of 2^50 runs is received' "$([ "$status" = 0 ] || echo "status $status")"
: >out
for word in send restore; do
    (timeout 20 "$program" $word doubled-store a 2>note; echo $? >ended) | head -c 100000 >/dev/null
    status=$(cat ended)
    refused "$word of it ends with its reader" 4 'output fault'
done

run compose none doubled; mv out doubled-composed; run squash none doubled
case_is 'a file of 2^50 runs is squashed' "$([ "$status" = 0 ] && cmp -s doubled-composed out || echo "status $status")"
: >out
run squash none small; mv out squashed; run squash none squashed
case_is 'squashing again changes nothing' "$([ "$status" = 0 ] && cmp -s squashed out || echo "status $status")"
: >out
cat small second >two-parts
commands=$("$program" dump small | wc -l)
run squash none two-parts; refused 'a second part is not squashed' 1 "refused 1 $commands $(($(wc -c <small) + 17)) 35 NotConsecutive"

# ---- closed standard descriptors

# Runs the program with some of the descriptors 0, 1 and 2 closed: bit N of the first argument
# closes descriptor N.
cat >closed.py <<'PYTHON'
import os, sys
for descriptor in range(3):
    if int(sys.argv[1]) >> descriptor & 1:
        os.close(descriptor)
os.execv(sys.argv[2], sys.argv[2:])
PYTHON

# OUTPUT COMMAND..: runs the command over a copy of a store with each of the eight ways to close
# descriptors. The store must afterwards be what it is without a closed one. The status is then 4 if
# standard output is closed and OUTPUT is `writes`, else the same. A message comes only if standard
# error is open.
closed_ways() {
    output=$1; shift
    rm -f closed-new; cp closed-store closed-wanted
    timeout 20 "$program" "$@" >out 2>note; plain=$?
    mv closed-wanted closed-after
    [ -e closed-new ] && mv closed-new closed-made
    wrong_way=
    for bits in 0 1 2 3 4 5 6 7; do
        rm -f closed-new; cp closed-store closed-wanted
        timeout 20 python3 closed.py $bits "$program" "$@" >out 2>note; status=$?
        due=$plain
        [ "$output" = writes ] && [ $((bits & 2)) != 0 ] && due=4
        [ "$status" = "$due" ] || wrong_way="$wrong_way, closed $bits: status $status and not $due"
        cmp -s closed-wanted closed-after || wrong_way="$wrong_way, closed $bits: another store"
        if [ -e closed-made ]; then cmp -s closed-new closed-made || wrong_way="$wrong_way, closed $bits: another new store"; fi
        if [ $((bits & 4)) != 0 ] && [ -s note ]; then wrong_way="$wrong_way, closed $bits: a message"; fi
        if [ $((bits & 4)) = 0 ] && [ "$due" != 0 ] && ! [ -s note ]; then wrong_way="$wrong_way, closed $bits: no message"; fi
    done
    rm -f closed-made closed-new
    case_is "eight ways to close descriptors, $*" "${wrong_way#, }"
}
rm -f closed-store; "$program" init closed-store; "$program" receive closed-store small >/dev/null
"$program" text small >closed-text
for words in 'init closed-wanted' 'init closed-new' 'drop closed-wanted a' 'drop closed-wanted z' 'show closed-wanted z' \
    'receive closed-wanted small' 'receive closed-wanted missing' 'receive' 'audit closed-wanted m5'; do
    closed_ways silent $words
done
for words in 'receive closed-wanted second' 'interleave closed-wanted 0 second' 'list closed-wanted' 'show closed-wanted a' \
    'cat closed-wanted a 1' 'scrub closed-wanted' 'send closed-wanted a' 'restore closed-wanted a' 'audit closed-wanted second' \
    'compose closed-wanted second' 'export closed-wanted second' 'squash closed-wanted second' 'stream closed-wanted a' 'dump small' 'text small' 'pack closed-text' 'gen 2 1' 'trial 2 1' '--help'; do
    closed_ways writes $words
done

# ---- standard output is the store

# COMMAND..: appends the output to the store that the command opens, and writes it over the store.
to_the_store() {
    cp closed-store itself
    timeout 20 "$program" "$@" >>itself 2>note; status=$?
    refused "$* >> the store" 4 'output fault
btrsend: standard output is the store itself: write to another file or into a pipe'
    timeout 20 "$program" "$@" 1<>itself 2>note; status=$?
    refused "$* over the store" 4 'output fault
btrsend: standard output is the store itself: write to another file or into a pipe'
    case_is "$* leaves the store as it was" "$(cmp closed-store itself 2>&1)"
}
: >out
for words in 'init itself' 'receive itself second' 'interleave itself 0 second' 'list itself' 'show itself a' 'cat itself a 1' \
    'drop itself a' 'scrub itself' 'send itself a' 'restore itself a' 'audit itself second' 'compose itself second' \
    'export itself second' 'squash itself second' 'stream itself a'; do
    to_the_store $words
done
cp closed-store itself
timeout 20 "$program" send itself >>itself 2>note; status=$?
refused 'a usage error comes first, also if standard output is the store' 2 usage
timeout 20 "$program" show itself z >>itself 2>note; status=$?
refused 'a missing snapshot comes first, also if standard output is the store' 8 'missing z'
case_is 'the store is as it was' "$(cmp closed-store itself 2>&1)"

# ---- explanations, and what is said in front of files

. "$here/explained.sh"

# ---- the files are as they were

for name in small first second third damaged donor taker; do
    cmp -s "$name" "kept/$name" || case_is "the file $name afterwards" "it was changed"
done
if [ "$wrong" = 0 ]; then echo "all right"; exit 0; fi
echo "$wrong wrong"
exit 1
