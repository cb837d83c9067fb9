#!/bin/sh
# Counts the edits that the proofs must refuse, crate by crate, and compares them with the table in
# docs/PROOFS.md between its two marks.
#
#   edits.sh            compares
#   edits.sh --write    puts the table there
#
# Status 0 if the page is right. Needs python3.
here=$(CDPATH='' cd -- "$(dirname -- "$0")/.." && pwd) || exit 2
cd -- "$here" || exit 2
exec python3 -B - "$@" <<'PYTHON'
import glob
import sys

sys.path.insert(0, 'trials')
from pages import keep

PAGE, BEGIN, END = 'docs/PROOFS.md', '<!-- BEGIN EDITS -->\n', '<!-- END EDITS -->\n'
COLUMNS = 4

counts = {}
for path in glob.glob('crates/*/must-fail/*.edit'):
    crate = path.split('/')[1]
    counts[crate] = counts.get(crate, 0) + 1

cells = ['`%s` | %d' % it for it in sorted(counts.items())]
rows = -(-len(cells) // COLUMNS)
lines = ['|' + ' crate | edits |' * COLUMNS + '\n', '|' + '---|---|' * COLUMNS + '\n']
for at in range(rows):
    row = [cells[it] if it < len(cells) else ' | ' for it in range(at, rows * COLUMNS, rows)]
    lines.append('| ' + ' | '.join(row) + ' |\n')
lines += ['\n', 'These are %d, in %d crates.\n' % (sum(counts.values()), len(counts))]

keep(PAGE, (BEGIN, END), lines, 'edits.sh', 'counts other edits than crates/*/must-fail')
print('edits.sh: all right')
PYTHON
