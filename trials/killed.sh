#!/bin/sh
# Ends receives by `kill -9` at random moments, and looks after each whether the store has what was
# acknowledged and goes on.
#
#   killed.sh [TIMES [PROGRAM]]     so many receives (1,000) are ended so
#
# The chain is one that `gen` makes. After each end `list` has to open the store, and to show as
# complete each part whose line stood whole on standard output, in the chain's order; at most one
# more is unfinished, and is dropped. The next receive gets the streams from the first part on that
# is not complete. Once a chain is whole, each of its parts is shown as one that was received in one
# go, `scrub` finds no fault, and a new store is begun. The program is the one that this repository
# has built, if no other is named; nothing is proved or built here. Status 0 where all was right.
# Needs python3.
here=$(CDPATH='' cd -- "$(dirname -- "$0")" && pwd) || exit 2
times=${1:-1000}
program=$2
. "$here/begin.sh"
cd -- "$folder" || exit 2
python3 - "$program" "$times" <<'PYTHON'
import os, random, struct, subprocess, sys, time

program, times = sys.argv[1], int(sys.argv[2])
PARTS = 60
chance = random.Random(18)

def ran(*words):
    return subprocess.run((program,) + words, stdout=subprocess.PIPE, stderr=subprocess.PIPE)

def wrong(why, done=None):
    print('WRONG: %s%s' % (why, '' if done is None else ': status %d, %r' % (done.returncode, done.stderr)))
    sys.exit(1)

# The streams of a chain, one for each part: a header of 17 bytes, and frames up to END, which has
# the number 21.
def streams_of(chain):
    found, start = [], 0
    while start < len(chain):
        at = start + 17
        while True:
            length, number = struct.unpack_from('<IH', chain, at)
            at += 10 + length
            if number == 21:
                break
        found.append(chain[start:at])
        start = at
    return found

def listed(store):
    done = ran('list', store)
    if done.returncode:
        wrong('the store does not open', done)
    return [line.split(b' ') for line in done.stdout.splitlines()]

def received(store, name):
    done = ran('receive', store, name)
    if done.returncode:
        wrong('receiving to the end', done)
    return done.stdout.splitlines()

# A chain, its parts in their order as `complete` names them, and how each is shown.
def chain_of(seed):
    streams = streams_of(ran('gen', str(PARTS), str(seed)).stdout)
    with open('whole', 'wb') as file:
        file.write(b''.join(streams))
    if os.path.exists('one'):
        os.unlink('one')
    ran('init', 'one')
    began = time.monotonic()
    parts = received('one', 'whole')
    taken = time.monotonic() - began
    if len(parts) != len(streams):
        wrong('%d lines for %d parts' % (len(parts), len(streams)))
    names = [line.split(b' ')[1] for line in parts]
    return streams, parts, names, [ran('show', 'one', os.fsdecode(name)).stdout for name in names], taken

killed = whole = unfinished = ahead = seed = 0
while killed < times:
    seed += 1
    streams, parts, names, shown, taken = chain_of(seed)
    if os.path.exists('store'):
        os.unlink('store')
    if ran('init', 'store').returncode:
        wrong('init')
    have = 0
    while have < len(parts):
        with open('rest', 'wb') as file:
            file.write(b''.join(streams[have:]))
        share = chance.random() * taken * (len(parts) - have) / len(parts) * 0.4
        done = subprocess.Popen((program, 'receive', 'store', 'rest'), stdout=subprocess.PIPE, stderr=subprocess.PIPE)
        time.sleep(share)
        done.kill()
        out, note = done.communicate()
        if done.returncode == -9:
            killed += 1
        elif done.returncode or note:
            wrong('a receive that was not ended ended so: %d %r' % (done.returncode, note))
        lines = out[:out.rfind(b'\n') + 1].splitlines()
        if lines != parts[have:have + len(lines)]:
            wrong('lines: %r' % lines)
        found = listed('store')
        complete = [words for words in found if words[3] == b'complete']
        others = [words for words in found if words[3] != b'complete']
        if [b' '.join([b'complete'] + words[:3]) for words in complete] != parts[:len(complete)]:
            wrong('what is complete is no front of the chain')
        if len(complete) < have + len(lines):
            wrong('%d parts were acknowledged, and %d are complete' % (have + len(lines), len(complete)))
        if len(others) > 1 or any(words[0] != names[len(complete)] for words in others):
            wrong('unfinished: %r' % others)
        ahead += len(complete) - have - len(lines)
        for words in others:
            unfinished += 1
            if ran('drop', 'store', os.fsdecode(words[0])).returncode:
                wrong('drop')
        have = len(complete)
        if killed >= times and have < len(parts):
            with open('rest', 'wb') as file:
                file.write(b''.join(streams[have:]))
            received('store', 'rest')
            have = len(parts)
    for name, text in zip(names, shown):
        if ran('show', 'store', os.fsdecode(name)).stdout != text:
            wrong('%r is shown as another' % name)
    if ran('scrub', 'store').returncode:
        wrong('scrub', ran('scrub', 'store'))
    whole += 1
print('right: %d receives ended, %d chains of %d parts whole; %d parts were left unfinished, and %d were complete without a line'
      % (killed, whole, PARTS, unfinished, ahead))
PYTHON
