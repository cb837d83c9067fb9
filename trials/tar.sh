#!/bin/bash
# Archives that `tar` writes, as Python's tarfile, GNU tar and bsdtar read them.
#
#   tar.sh [PROGRAM [FILE..]]
#
# PROGRAM is crates/btrsend/out/btrsend if none is given, and the files are a chain in its order, that
# of docs/example if none is given. Each snapshot of the chain, of chains that `gen` writes, and of a
# subvolume with all that is hard is written as an archive. That one has long and odd names, names that
# are no UTF-8, attributes, devices, pipes, sockets, holes, a file of 1 TiB with one block, large
# numbers, and times of any year. Python reads the members, and GNU tar and bsdtar, where they are
# there, take the archive apart. Each path is compared with what `show` and `cat` say: kind, mode,
# owner, times with nanoseconds, attributes, links, devices, and bytes. GNU tar must leave holes.
# Attributes of an inode are compared where the file system of the scratch folder keeps all of them.
# Needs python3; as root, owners and devices are compared too. Status 0 if all is right.
here=$(CDPATH='' cd -- "$(dirname -- "$0")" && pwd) || exit 2
program=$1
. "$here/begin.sh"
[ $# -gt 0 ] && shift
example=$here/../docs/example
[ $# -gt 0 ] || set -- "$example/monday" "$example/tuesday" "$example/wednesday"

# A subvolume with all that is hard, as a text.
python3 - >"$folder/hard.text" <<'PYTHON'
def escaped(name):
    return ''.join(chr(b) if 0x21 <= b <= 0x7e and b != 0x5c else '\\x%02x' % b for b in name)

def say(word, **values):
    print(word, *('%s=%s' % (key, escaped(value) if isinstance(value, bytes) else value) for key, value in values.items()))

def file(name, data=b'', offset=0):
    say('MKFILE', path=name)
    if data:
        say('WRITE', path=name, offset=offset, data=data.hex())

print('stream 1')
say('SUBVOL', uuid='00000001-0000-4000-8000-000000000000', ctransid=1, path=b'hard')
for name in (b'n' * 255, 'Stra\u00dfe'.encode(), b'\xff\xfe', b'with space', b'new\nline', b'back\\slash', b'a%b=c'):
    file(name, b'of ' + name)
deep = b''
for part in range(40):
    deep = deep + (b'/' if deep else b'') + b'd' * 90 + b'%02d' % part
    say('MKDIR', path=deep)
file(deep + b'/end', b'deep')
say('LINK', path=b'z-link', link=deep + b'/end')
say('LINK', path=b'a-link', link=b'with space')
say('SYMLINK', path=b'short-link', link=b'with space')
say('SYMLINK', path=b'long-link', link=b't/' * 400)
say('SYMLINK', path=b'odd-link', link=b'\xff')
say('MKNOD', mode='20600', rdev=(259 & 0xff) << 8 | 0x7 | (259 >> 8) << 8, path=b'device')
say('MKNOD', mode='60640', rdev=8 << 8 | 1, path=b'block')
say('MKFIFO', path=b'pipe')
say('MKSOCK', path=b'socket')
for name, value in ((b'user.plain', b'value'), (b'user.a=b', b'1'), (b'user.c%d', b'2'), (b'user.binary', bytes(range(256))), (b'user.line', b'a\nb 3\n')):
    say('SET_XATTR', xattr=name, value=value.hex(), path=b'with space')
file(b'hole-first', b'x' * 4096, 1 << 20)
file(b'hole-between', b'x' * 4096)
say('WRITE', path=b'hole-between', offset=1 << 21, data=(b'y' * 5000).hex())
file(b'hole-last', b'x' * 100)
say('TRUNCATE', size=1 << 22, path=b'hole-last')
file(b'hole-only')
say('TRUNCATE', size=12345, path=b'hole-only')
file(b'huge', b'z' * 4096, 1 << 39)
say('TRUNCATE', size=1 << 40, path=b'huge')
file(b'empty')
say('CHOWN', uid=1 << 22, gid=3000000000, path=b'a%b=c')
for number, name in enumerate((b'with space', b'a%b=c', b'pipe', b'hole-first')):
    seconds = (1 << 40, (1 << 64) - 1000, 0, 1700000000)[number]
    say('UTIMES', mtime='%d.%09d' % (seconds, 123456789), atime='%d.%09d' % (seconds, 0), path=name)
say('CHMOD', mode='6755', path=b'hole-between')
print('END')
PYTHON
"$program" text "$here/../docs/example/monday" >"$folder/sample" || exit 2
"$program" pack "$folder/hard.text" >"$folder/hard" || { echo 'the hard subvolume is not understood' >&2; exit 2; }
for seed in 1 2 3; do "$program" gen 4 $seed >"$folder/made$seed" || exit 2; done

python3 - "$program" "$folder" "$@" <<'PYTHON'
import os, re, shutil, stat, subprocess, sys, tarfile

program, folder, *files = sys.argv[1:]
root = os.geteuid() == 0
wrong = members = archives = 0

def complain(*what):
    global wrong
    wrong += 1
    if wrong <= 20:
        print('WRONG', *what)

def run(*words):
    done = subprocess.run([program, *words], capture_output=True)
    if done.returncode:
        complain(*words[:2], 'status', done.returncode, done.stderr)
    return done.stdout

def meant(word):
    return re.sub(rb'\\x(..)', lambda found: bytes([int(found[1], 16)]), word)

# A path as a word.
def word(path):
    return b'escaped:' + b''.join(bytes([b]) if 0x21 <= b <= 0x7e and b != 0x5c else b'\\x%02x' % b for b in path)

KINDS = dict(dir=stat.S_IFDIR, file=stat.S_IFREG, symlink=stat.S_IFLNK, fifo=stat.S_IFIFO, socket=stat.S_IFSOCK, chr=stat.S_IFCHR, blk=stat.S_IFBLK)

# What `show` says of each path: the inode, and its number.
def shown(store, name):
    inodes, names, attributes = {}, {}, {}
    for line in run('show', store, b'escaped:' + name).split(b'\n'):
        words = line.split(b' ')
        if words[0] == b'inode':
            number, kind, mode, uid, gid, atime, mtime, flags, size = words[1:10]
            times = [(int(t.split(b'.')[0]), int(t.split(b'.')[1])) for t in (atime, mtime)]
            inodes[number] = dict(kind=kind.decode(), mode=int(mode, 8), uid=int(uid), gid=int(gid), atime=times[0], mtime=times[1],
                                  rdev=int(size) if kind in (b'chr', b'blk') else 0, size=size)
        elif words[0] == b'name':
            names.setdefault(words[1], []).append((meant(words[2]), words[3]))
        elif words[0] == b'xattr':
            attributes.setdefault(words[2 - 1], {})[meant(words[2])] = bytes.fromhex(words[3].decode()) if words[3:] else b''
    paths = {}
    def go(path, number):
        paths[path] = number
        for part, inode in names.get(number, []):
            go(path + b'/' + part if path else part, inode)
    go(b'', b'256')
    return paths, inodes, attributes

def signed(time):
    seconds, nanos = time
    seconds -= 1 << 64 if seconds >= 1 << 63 else 0
    return seconds * 10 ** 9 + nanos

def record_time(text):
    negative = text.startswith('-')
    whole, _, rest = text.lstrip('-').partition('.')
    nanos = int(whole) * 10 ** 9 + int((rest + '000000000')[:9])
    return -nanos if negative else nanos

def raw(text):
    return text.encode('utf-8', 'surrogateescape')

# The members as Python reads them.
def by_python(label, archive, store, name, paths, inodes, attributes):
    global members
    firsts, seen = {}, set()
    with tarfile.open(archive, errorlevel=2, encoding='utf-8', errors='surrogateescape') as read:
        for member in read:
            members += 1
            path = raw(member.name)
            path = path[2:] if path.startswith(b'./') else b'' if path == b'.' else path
            path = path.rstrip(b'/')
            if path not in paths:
                complain(label, path, 'is no path')
                continue
            seen.add(path)
            number = paths[path]
            inode = inodes[number]
            link = member.islnk()
            if link != (number in firsts):
                complain(label, path, 'is a link, or is none')
            if link:
                target = raw(member.linkname)
                if target != b'./' + firsts[number]:
                    complain(label, path, 'links to', target)
                continue
            firsts[number] = path
            kind = next(bits for test, bits in ((member.isdir, stat.S_IFDIR), (member.isreg, stat.S_IFREG), (member.issym, stat.S_IFLNK),
                (member.isfifo, stat.S_IFIFO), (member.ischr, stat.S_IFCHR), (member.isblk, stat.S_IFBLK)) if test())
            if kind != KINDS[inode['kind']]:
                complain(label, path, 'has another kind')
            if (member.mode, member.uid, member.gid) != (inode['mode'], inode['uid'], inode['gid']):
                complain(label, path, 'mode and owner', member.mode, member.uid, member.gid)
            for key in ('mtime', 'atime'):
                if record_time(member.pax_headers[key]) != signed(inode[key]):
                    complain(label, path, key, member.pax_headers[key], inode[key])
            if member.ischr() or member.isblk():
                device = os.makedev(member.devmajor, member.devminor)
                said = os.makedev(os.major(inode['rdev']), os.minor(inode['rdev']))
                if device != said:
                    complain(label, path, 'device', member.devmajor, member.devminor)
            if member.issym() and raw(member.linkname) != meant(inode['size']):
                complain(label, path, 'target', member.linkname)
            got = {raw(key[13:]).replace(b'%3D', b'=').replace(b'%25', b'%'): raw(value)
                   for key, value in member.pax_headers.items() if key.startswith('SCHILY.xattr.')}
            if got != attributes.get(number, {}):
                complain(label, path, 'attributes', got)
            if member.isreg():
                if member.size != int(inode['size']):
                    complain(label, path, 'size', member.size)
                elif member.size < 1 << 30 and read.extractfile(member).read() != run('cat', store, b'escaped:' + name, word(path)):
                    complain(label, path, 'has other bytes')
    for path, number in paths.items():
        if path not in seen and inodes[number]['kind'] != 'socket':
            complain(label, path, 'is missing')

# Whether the file system of this folder keeps these attributes, which one that is no Btrfs may not.
def kept(attributes):
    probe = os.path.join(folder, 'probe')
    open(probe, 'wb').close()
    try:
        for key, value in attributes.items():
            os.setxattr(probe, key, value)
        return True
    except OSError:
        return False
    finally:
        os.remove(probe)

# What a program takes apart.
def by_program(label, words, archive, store, name, paths, inodes, attributes):
    into = os.path.join(folder, 'taken')
    shutil.rmtree(into, ignore_errors=True)
    os.mkdir(into)
    done = subprocess.run([*words, '-xf', archive, '-C', into], capture_output=True)
    # bsdtar says so of attributes that the file system of the folder does not keep, and goes on
    said = [line for line in done.stderr.split(b'\n') if line and b'Cannot restore extended attributes' not in line
            and b'Error exit delayed' not in line]
    if done.returncode and ('GNU' in label or said):
        complain(label, done.stderr[-300:])
        return
    base = into.encode()
    for path, number in paths.items():
        inode = inodes[number]
        here = base + b'/' + path
        try:
            got = os.lstat(here)
        except OSError:
            if inode['kind'] != 'socket':
                complain(label, path, 'is missing')
            continue
        if stat.S_IFMT(got.st_mode) != KINDS[inode['kind']]:
            complain(label, path, 'has another kind')
            continue
        if inode['kind'] != 'symlink' and stat.S_IMODE(got.st_mode) != inode['mode']:
            complain(label, path, 'mode', oct(got.st_mode))
        if root and (got.st_uid, got.st_gid) != (inode['uid'], inode['gid']):
            complain(label, path, 'owner', got.st_uid, got.st_gid)
        # bsdtar leaves the time of the folder that it was given, and reads another one before 1970
        timed = 'GNU' in label or path and signed(inode['mtime']) >= 0
        if timed and -(1 << 31) < signed(inode['mtime']) // 10 ** 9 < 1 << 33 and got.st_mtime_ns != signed(inode['mtime']):
            complain(label, path, 'time', got.st_mtime_ns, inode['mtime'])
        if inode['kind'] == 'symlink' and os.readlink(here) != meant(inode['size']):
            complain(label, path, 'target')
        if inode['kind'] == 'file':
            if got.st_size != int(inode['size']):
                complain(label, path, 'size', got.st_size)
            elif got.st_size < 1 << 30 and open(here, 'rb').read() != run('cat', store, b'escaped:' + name, word(path)):
                complain(label, path, 'has other bytes')
            if 'GNU' in label and got.st_size > 1 << 30 and got.st_blocks * 512 > 1 << 20:
                complain(label, path, 'has no holes')
        if inode['kind'] in ('file', 'dir') and 'GNU' in label:
            have = {os.fsencode(key): os.getxattr(here, os.fsencode(key)) for key in os.listxattr(here)}
            wanted = attributes.get(number, {})
            if not kept(wanted):
                have, wanted = {}, {}
            if have != wanted:
                complain(label, path, 'attributes', have)
    shutil.rmtree(into)

apart = [('GNU tar', ['tar', '--xattrs', '--xattrs-include=*', '--numeric-owner', '-p'])]
if shutil.which('bsdtar'):
    apart.append(('bsdtar', ['bsdtar', '--no-xattrs', '--numeric-owner', '-p']))
gnu = subprocess.run(['tar', '--version'], capture_output=True).stdout
apart = [each for each in apart if each[0] != 'GNU tar' or b'GNU tar' in gnu]

for chain in [files, [folder + '/made1'], [folder + '/made2'], [folder + '/made3'], [folder + '/hard']]:
    store = folder + '/store'
    if os.path.exists(store):
        os.remove(store)
    run('init', store)
    run('receive', store, *chain)
    for line in run('list', store).splitlines():
        name = line.split(b' ')[0]
        archive = folder + '/archive'
        with open(archive, 'wb') as out:
            if subprocess.run([program, 'tar', store, b'escaped:' + name], stdout=out).returncode:
                complain(name, 'no archive')
                continue
        archives += 1
        about = (archive, store, name, *shown(store, name))
        by_python('tarfile, %s:' % name.decode(), *about)
        for label, words in apart:
            by_program('%s, %s:' % (label, name.decode()), words, *about)
        if name == b'hard' and os.path.getsize(archive) > 1 << 20:
            complain('the archive of the hard subvolume has', os.path.getsize(archive), 'bytes')
print('tar: %d archives, %d members, with tarfile%s, %d wrong' % (archives, members, ''.join(', ' + each[0] for each in apart), wrong))
sys.exit(wrong != 0)
PYTHON
