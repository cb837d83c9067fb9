#!/bin/sh
# Counts the cases that the scripts of crates/transcripts have of each exit status, each refusal,
# each command and each line that a script can have, and compares them with the table at the head of
# its src/main.rt between its two marks.
#
#   transcripts.sh            compares
#   transcripts.sh --write    puts the table there
#
# A run of `every` counts once for each answer that it shows. After each fault of a disk and each
# loss of power the store must have each snapshot whose line was written before. Status 0 if that
# holds, the table is right, and nothing but what can have no case is without one. Needs python3.
here=$(CDPATH='' cd -- "$(dirname -- "$0")/.." && pwd) || exit 2
cd -- "$here" || exit 2
exec python3 -B - "$@" <<'PYTHON'
import glob
import re
import sys
import textwrap

sys.path.insert(0, 'trials')
from pages import keep

PAGE, BEGIN, END = 'crates/transcripts/src/main.rt', '// BEGIN CASES\n', '// END CASES\n'
# The statuses of too little memory and of a file of 2^62 bytes, a refusal that is never answered,
# and the one of a subvolume with 2^64 inodes.
WITHOUT = {'status 7', 'status 11', 'refusal 36', 'refusal 38'}
STATUSES = range(15)

refusals = {}
for name, number in re.findall(r'Refusal::(\w+)[^=\n]* => (\d+),', open('crates/sx_base/src/refusal.rt').read()):
    refusals[int(number)] = name
words = re.findall(r'^\s+"([\w-]+)" =>', open('crates/command_line/src/parsing.rt').read(), re.M)
if not refusals or not words:
    sys.exit('the refusals or the commands are not where they were')
about = open(PAGE).read().split('#![tactic(auto)]')[0]
directives = [it[0] for it in re.findall(r'^//(?: {5}| {9})((every )?[a-z]+)(?= |$)', about, re.M) if it[0] != 'every']

counts = {}
def count(what):
    counts[what] = counts.get(what, 0) + 1

for line in open('crates/transcripts/stdout'):
    found = re.match(r'(?:(?:call|length|place|schedule) [\d to]+: |  list: )?status (\d+)(?:: refused \d+ \d+ \d+ (\d+) )?', line)
    if found:
        count('status ' + found[1])
        if found[2]:
            count('refusal ' + found[2])

for script in open('crates/transcripts/args').read().split():
    inside = False
    for line in open('crates/transcripts/data/' + script):
        line = line.rstrip('\n')
        if inside:
            inside = line != '.'
            continue
        before, sign, run = line.partition('$ ')
        if sign and run:
            count('command ' + run.split()[0])
        for it in directives:
            if re.match(it + r'( |$)', before):
                count('line ' + it)
        inside = bool(re.match('(stream|text) ', line))

def row(title, names):
    cells = ['%s %d' % (shown, counts.get(key, 0)) for key, shown in names]
    return textwrap.wrap(title + ': ' + ', '.join(cells) + '.', 97, initial_indent='', subsequent_indent='    ')

kinds = [
    ('Statuses', [('status %d' % it, '%d:' % it) for it in STATUSES]),
    ('Refusals', [('refusal %d' % it, '%d %s:' % (it, refusals[it])) for it in sorted(refusals)]),
    ('Commands', [('command ' + it, it + ':') for it in words]),
    ('Lines', [('line ' + it, it + ':') for it in directives]),
]
lines = ['// ' + line + '\n' for title, names in kinds for line in row(title, names)]
missing = [key for _, names in kinds for key, _ in names if key not in counts and key not in WITHOUT]

keep(PAGE, (BEGIN, END), lines, 'transcripts.sh', 'counts other cases than the scripts have')

def faults():
    """Gives the run, what it wrote and what `list` says then, of each fault of a disk."""
    run = parts = part = None
    for line in open('crates/transcripts/stdout'):
        if parts and not line.startswith('  '):
            yield run, parts['written'], parts['list']
            parts = None
        if line.startswith('call ') and run:
            parts = {'written': [], 'list': []}
        elif line.startswith('    ') and parts:
            parts[part].append(line.split())
        elif line.startswith('  ') and parts:
            part = line.split(':')[0].strip()
        else:
            run = line.rstrip('\n') if re.match(r'every (disk|power \d+) \$ (receive|interleave) ', line) else None

judged = 0
for run, written, listed in faults():
    judged += 1
    there = {it[0] for it in listed if it[3] == 'complete'}
    if any(it[1] not in there for it in written):
        sys.exit('what was acknowledged is not there: ' + run)
if not judged:
    sys.exit('no case of a fault of a disk')
if missing:
    sys.exit('without a case: ' + ', '.join(missing))
print('transcripts.sh: all right, with %d answers after faults' % judged)
PYTHON
