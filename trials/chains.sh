# A part of received.sh and restored_chain.sh, which read it: Btrfs images, chains of days, and what
# differs between two subvolumes. It needs `btrsend`, the program, and says with which version of
# btrfs-progs it runs.

for needed in btrfs mkfs.btrfs python3 "$btrsend"; do
    command -v "$needed" >/dev/null || { echo "there is no command $needed" >&2; exit 2; }
done
# Which receiver this is, which everything depends on.
receiver="$(btrfs --version | head -n 1), Linux $(uname -r)"
echo "with $receiver"
folder=$(mktemp -d) || exit 2
clean() {
    for place in "$folder"/*.image; do umount "${place%.image}" 2>/dev/null; done
    rm -rf --one-file-system -- "$folder"
}
trap clean EXIT
trap 'exit 2' HUP INT TERM

# A fresh Btrfs of so many MiB, mounted at a folder of this name.
fresh() {
    umount "$folder/$1" 2>/dev/null
    rm -f -- "$folder/$1.image"
    mkdir -p "$folder/$1" && truncate -s "$2M" "$folder/$1.image" && mkfs.btrfs -q "$folder/$1.image" >/dev/null 2>&1 &&
        mount -o loop,noatime "$folder/$1.image" "$folder/$1" 2>/dev/null && return
    echo "no Btrfs image can be mounted here, so nothing was received" >&2
    exit 2
}

# compare BEGAN MERGED CHAIN [ORIGINAL]: the paths that differ, at most five. A time that no command
# sets is that of receiving, and not compared: receiving began at BEGAN.
cat >"$folder/compare" <<'PYTHON'
import hashlib, os, stat, sys

def found(path):
    kept = os.lstat(path)
    told = dict(mode=kept.st_mode, uid=kept.st_uid, gid=kept.st_gid, names=kept.st_nlink, device=kept.st_rdev)
    told.update(mtime=kept.st_mtime_ns, atime=kept.st_atime_ns)
    for name in os.listxattr(path, follow_symlinks=False):
        told[name] = os.getxattr(path, name, follow_symlinks=False)
    if stat.S_ISLNK(kept.st_mode):
        told['target'] = os.readlink(path)
    if stat.S_ISREG(kept.st_mode):
        told['size'] = kept.st_size
        with open(path, 'rb') as file:
            told['bytes'] = hashlib.sha256(file.read()).hexdigest()
    return kept.st_ino, told

# The paths below a folder, the folder itself among them, each with the first path of its inode.
def tree(root):
    paths, first = {}, {}
    for folder, folders, files in os.walk(root):
        folders.sort()
        links = [name for name in folders if os.path.islink(os.path.join(folder, name))]
        for name in [b''] + sorted(files + links):
            path = os.path.relpath(os.path.join(folder, name), root)
            inode, told = found(os.path.join(root, path))
            paths[path] = told
            told['inode of'] = first.setdefault(inode, path)
    return paths

began = int(sys.argv[1])
merged, chain, *sent = [tree(os.fsencode(root)) for root in sys.argv[2:]]
differing = {}
for other in [chain, *sent]:
    for path in merged.keys() | other.keys():
        here, there = merged.get(path, {}), other.get(path, {})
        for name in here.keys() | there.keys():
            received = name in ('mtime', 'atime') and chain.get(path, {}).get(name, 0) >= began
            if here.get(name) != there.get(name) and not received:
                differing.setdefault(path, {})[name] = (here.get(name), there.get(name))
for path in sorted(differing)[:5]:
    facts = sorted(differing[path].items(), key=lambda fact: (fact[0] != 'size', str(fact[0])))
    name, (here, there) = facts[0]
    print('   ', os.fsdecode(path) + ':', 'other bytes' if name == 'bytes' else f'{name} is {here} and should be {there}')
sys.exit(bool(differing))
PYTHON

right=0 wrong=0
judged() {
    if [ "$2" = 0 ]; then right=$((right + 1)); echo "right $1"; else wrong=$((wrong + 1)); echo "WRONG $1${3:+: $3}"; fi
}

# What is done on each day of a case, in the subvolume that is sent. `put` makes a file of so many
# bytes of one letter, and `save` does as editors do: it writes a new file and renames it over the
# old one.
put() { printf "%*s" "$2" '' | tr ' ' "$3" >"$1"; }
save() { put "$1.new" "$2" "$3" && mv "$1.new" "$1"; }
letter() { printf "\\$(printf %o $((96 + $1)))"; }

day_of() {
    day=$2 now=$(letter "$2")
    case $1.$2 in
    removed.1 | renamed.1) put x 30 a ;;
    removed.2) rm x && put x 20 b ;;
    renamed.2) mv x y && put x 20 b ;;
    saved.1) put photo.1 9000 p && put photo.2 9000 q && put todo 1000 a ;;
    alone.1) put todo 1000 a ;;
    beside.1) mkdir btrsend.0 btrsend.1 btrsend.2 && put todo 1000 a ;;
    saved.* | alone.* | beside.*) save todo $((1000 + 90 * day)) "$now" ;;
    logs.1) put log 5000 a ;;
    logs.*)
        for older in 3 2 1; do [ ! -e log.$older ] || mv log.$older log.$((older + 1)) || return; done
        mv log log.1 && put log $((5000 + 700 * day)) "$now"
        ;;
    folders.1) mkdir docs && put docs/one 7000 a && put docs/two 100 b ;;
    folders.2) mv docs old && mkdir docs && put docs/one 6000 c && save old/two 200 d ;;
    folders.3) rm -r old && mv docs old && mkdir docs && put docs/one 5000 e ;;
    folders.4) mv docs new && mv old docs && mv new old && save docs/one 4000 f && save old/one 3000 g ;;
    links.1) put one 6000 a && ln one two ;;
    links.2) save one 5000 b && ln -f one three && save two 4000 c ;;
    links.3) ln -f two one && printf more >>one && save two 3000 d ;;
    links.4) rm one && mv three one && printf more >>one && ln -f one two ;;
    swapped.1) put one 6000 a && put two 5000 b ;;
    swapped.*) mv one other && mv two one && mv other two && printf more >>one && printf %5000d 0 >>two ;;
    reflinks.1) put one 65536 a && cp --reflink=always one two ;;
    reflinks.2) rm two && cp --reflink=always one two && printf here | dd of=two bs=4096 seek=3 conv=notrunc status=none ;;
    reflinks.3) cp --reflink=always two other && mv other one && rm two && cp --reflink=always one two ;;
    reflinks.4) rm two && cp --reflink=always one two && printf here | dd of=two bs=4096 seek=5 conv=notrunc status=none ;;
    holes.1) put one 65536 a && put two 65536 b ;;
    holes.2) fallocate -p -o 8192 -l 16384 one && save two 65536 c ;;
    holes.3) save one 65536 d && fallocate -p -o 4096 -l 8192 one && fallocate -p -o 0 -l 65536 two ;;
    holes.4) mv one two && truncate -s 70000 one && printf here | dd of=one bs=1000 seek=9 conv=notrunc status=none ;;
    kinds.1) kinds ;;
    kinds.2) kinds_later ;;
    random.*)
        # A subshell has random numbers of its own.
        RANDOM=$((64 * seed + day))
        for _ in 1 2 3 4; do random_edit; done
        ;;
    esac
}

# All kinds of inodes, modes, owners, attributes, capabilities and ACLs, default ones too; links
# across folders, and deep folders.
acl() { python3 -c "import os, sys; os.setxattr(sys.argv[1], 'system.posix_acl_' + sys.argv[2], bytes.fromhex('02000000' + sys.argv[3]))" "$@"; }
capable() { python3 -c "import os, sys; os.setxattr(sys.argv[1], 'security.capability', bytes.fromhex('0100000200200000000000000000000000000000'))" "$1"; }
marked() { python3 -c "import os, sys; os.setxattr(sys.argv[1], 'user.' + sys.argv[2], os.fsencode(sys.argv[3]))" "$@"; }
readers=01000700ffffffff02000500e803000004000500ffffffff10000700ffffffff20000000ffffffff

kinds() {
    mkdir -p deep/er/and/deep/er shared private && put plain 5000 a && put deep/er/and/deep/er/below 70000 b || return
    put tool 3000 c && chmod 4755 tool && put ping 2000 d && chown 1000:1000 ping && capable ping || return
    ln -s /etc/passwd outside && ln -s ../plain deep/inside && ln -s nowhere broken && chown -h 1000:100 broken || return
    mknod null c 1 3 && mknod disk b 8 1 && mkfifo pipe && chmod 622 pipe && chown 0:6 disk || return
    python3 -c 'import socket; socket.socket(socket.AF_UNIX).bind("socket")' || return
    acl shared default $readers && put shared/inherits 1000 e && mkdir shared/folder && acl shared/inherits access $readers || return
    chmod 700 private && chmod 2775 shared && chown 1000:1000 private && put private/0 10 f && chmod 000 private/0 || return
    ln plain deep/er/and/linked && ln deep/er/and/deep/er/below private/linked && ln ping ping.again || return
    marked plain colour red && marked deep depth 1 && marked private empty '' || return
    truncate -s 1000000 holes && printf here | dd of=holes bs=1 seek=500000 conv=notrunc status=none || return
    touch -h -d 2001-02-03T04:05:06.789 outside plain deep/er deep private/linked && touch -d 1990-01-01 .
}

kinds_later() {
    mv deep/er deep.er && save plain 4000 g && rm ping && marked tool colour blue && chmod 1777 private && rm shared/inherits || return
    put shared/later 3000 h && mkdir shared/folder/below && ln tool shared/folder/below/tool && chown 5:6 tool && capable tool || return
    truncate -s 300 holes && mv outside shared/outside && touch -d 1980-01-01T01:00 shared shared/folder . && touch -h -d 1999-09-09 broken
}

# A random edit of a few files and folders; where it can not be done, it is left out.
random_edit() {
    names=(one two docs/one docs/two old/one)
    this=${names[RANDOM % 5]} that=${names[RANDOM % 5]}
    mkdir -p docs old
    case $((RANDOM % 10)) in
    0 | 1 | 2) save "$this" $((RANDOM % 20000)) "$now" ;;
    3) printf "%$((RANDOM % 6000))d" 0 >>"$this" ;;
    4) rm "$this" ;;
    5) mv "$this" "$that" ;;
    6) ln -f "$this" "$that" ;;
    7) cp --reflink=always "$this" "$that" ;;
    8) fallocate -p -o $((4096 * (RANDOM % 4))) -l 4096 "$this" ;;
    9) mv docs other && mv old docs && mv other old ;;
    esac 2>/dev/null
}

