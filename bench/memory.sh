#!/bin/sh
# Time and peak memory of what once took too much of either: a file that is cloned onto its own end
# 50 times; a file of 1,000,000 runs, alone and with 100 snapshots of it that write 100 places each;
# and 200,000 files of one run, in one folder by names of 30 bytes, and in folders of 1,000 by paths
# of 30. Three words may say other numbers of runs, of snapshots, and of files. Proves and builds
# the program first. Needs python3.
here=$(CDPATH='' cd -- "$(dirname -- "$0")" && pwd) || exit 2
runs=${1:-1000000}
snapshots=${2:-100}
files=${3:-200000}
. "$here/prepare.sh"
cd -- "$folder" || exit 2
python3 - "$runs" "$snapshots" "$files" <<'PYTHON' || exit 2
import random, struct, sys, zlib

runs, snapshots, files = (int(word) for word in sys.argv[1:])
NUMBERS = dict(uuid=1, ctransid=2, path=15, offset=18, data=19, clone_uuid=20, clone_ctransid=21, clone_path=22, clone_offset=23,
               clone_len=24)
TABLES = [[0] * 256 for _ in range(8)]
for entry in range(256):
    value = entry
    for bit in range(8):
        value = (value >> 1) ^ (0x82F63B78 if value & 1 else 0)
    TABLES[0][entry] = value
for table in range(1, 8):
    for entry in range(256):
        before = TABLES[table - 1][entry]
        TABLES[table][entry] = (before >> 8) ^ TABLES[0][before & 255]

def checksum(data):
    value, at, t = 0, 0, TABLES
    while at + 8 <= len(data):
        low, high = struct.unpack_from('<II', data, at)
        low ^= value
        value = (t[7][low & 255] ^ t[6][low >> 8 & 255] ^ t[5][low >> 16 & 255] ^ t[4][low >> 24]
                 ^ t[3][high & 255] ^ t[2][high >> 8 & 255] ^ t[1][high >> 16 & 255] ^ t[0][high >> 24])
        at += 8
    for byte in data[at:]:
        value = (value >> 8) ^ t[0][(value ^ byte) & 255]
    return value

def command(number, **values):
    body = b''
    for name, value in values.items():
        value = struct.pack('<Q', value) if isinstance(value, int) else value
        body += struct.pack('<HH', NUMBERS[name], len(value)) + value
    front = struct.pack('<IH', len(body), number)
    return front + struct.pack('<I', checksum(front + bytes(4) + body)) + body

HEADER = b'btrfs-stream\0' + struct.pack('<I', 1)
END = command(21)

def uuid(number):
    return struct.pack('>QQ', 1, number)

def full(edits):
    return HEADER + command(1, uuid=uuid(1), ctransid=1, path=b's1') + edits + END

def later(number, edits):
    head = command(2, uuid=uuid(number), ctransid=number, path=b's%d' % number, clone_uuid=uuid(number - 1),
                   clone_ctransid=number - 1)
    return HEADER + head + edits + END

def write(path, offset, data):
    return command(15, path=path, offset=offset, data=data)

def clone(offset, length):
    return command(16, path=b'f', offset=offset, clone_uuid=uuid(1), clone_ctransid=1, clone_path=b'f', clone_offset=0,
                   clone_len=length)

def put(name, data):
    with open(name, 'wb') as out:
        out.write(data)

doubled, length = [command(3, path=b'f'), write(b'f', 0, bytes(4096))], 4096
for _ in range(50):
    doubled.append(clone(length, length))
    length *= 2
put('doubled', full(b''.join(doubled)))
put('image', full(command(3, path=b'f') + b''.join(write(b'f', 16 * at, b'%16d' % at) for at in range(runs))))
draws = random.Random(1)
for number in range(2, snapshots + 2):
    places = (draws.randrange(runs) for _ in range(100))
    put('s%03d' % number, later(number, b''.join(write(b'f', 16 * at, b'%16d' % number) for at in places)))
names = (b'%030d' % at for at in range(files))
put('files', full(b''.join(command(3, path=name) + write(name, 0, b'one run') for name in names)))
folders = b''.join(command(4, path=b'folder-%06d' % at) for at in range(files // 1000 + 1))
paths = (b'folder-%06d/%016d' % (at // 1000, at) for at in range(files))
put('folders', full(folders + b''.join(command(3, path=path) + write(path, 0, b'one run') for path in paths)))
PYTHON

# WHAT WORDS..: one line of the times and of the memory of these words.
takes() {
    what=$1; shift
    measured=$("$folder/streams" measure "$folder/out" "$program" "$@") || { echo "$what: it did not end with status 0" >&2; exit 1; }
    echo "$measured" | awk -v what="$what" '{ printf "%-50s %8.3f s  %8.1f MiB\n", what, $1, $2 / 1024 }'
}
takes 'audit, a file cloned onto its end 50 times' audit none doubled
for word in audit compose; do
    takes "$word, a file of $runs runs" "$word" none image
    takes "$word, the same with $snapshots snapshots" "$word" none image s???
    takes "$word, $files files of one run" "$word" none files
    takes "$word, as many files in folders" "$word" none folders
done
