#!/bin/sh
# Draws the levels of the crates from crates.txt, and compares them with what docs/ARCHITECTURE.md
# shows between its two marks.
#
#   levels.sh            compares
#   levels.sh --write    puts them there
#
# A crate is one level above the highest crate that it uses. Behind it are the crates that it uses,
# without those that another one of them uses too. Left out are the kit's crates, and `scratch`, in
# which somebody tries a proof. Status 0 if the page is right. Needs python3.
here=$(CDPATH='' cd -- "$(dirname -- "$0")/.." && pwd) || exit 2
cd -- "$here" || exit 2
exec python3 -B - "$@" <<'PYTHON'
import sys
import textwrap

sys.path.insert(0, 'trials')
from pages import keep

PAGE, BEGIN, END = 'docs/ARCHITECTURE.md', '<!-- BEGIN LEVELS -->\n', '<!-- END LEVELS -->\n'

uses = {}
for line in open('crates.txt'):
    line = line.split('#')[0].strip()
    if line:
        name, libraries = line.split(':')
        uses[name.split()[0]] = libraries.split()
uses.pop('scratch', None)
uses = {name: [it for it in libraries if it in uses] for name, libraries in uses.items()}

below, level = {}, {}

def visit(name):
    if name not in below:
        below[name], level[name] = set(), 1
        for it in uses[name]:
            visit(it)
            below[name] |= {it} | below[it]
            level[name] = max(level[name], level[it] + 1)

for name in uses:
    visit(name)

def reduced(name):
    return [it for it in uses[name] if not any(it in below[other] for other in uses[name])]

lines = ['```\n']
for number in sorted(set(level.values()), reverse=True):
    for at, name in enumerate(sorted(it for it in level if level[it] == number)):
        front = ('%2d  ' % number if at == 0 else '    ') + '%-22s' % name
        text = front + ' '.join(sorted(reduced(name)))
        lines += [it + '\n' for it in textwrap.wrap(text, 100, subsequent_indent=' ' * 26,
                                                    drop_whitespace=False)]
lines = [it.rstrip() + '\n' for it in lines + ['```\n']]

keep(PAGE, (BEGIN, END), lines, 'levels.sh', 'shows other levels than crates.txt')
print('levels.sh: all right')
PYTHON
