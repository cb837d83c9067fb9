#!/bin/sh
# Runs the examples of README.md, and compares what they print with what stands there.
#
#   readme.sh [PROGRAM]     PROGRAM is crates/btrsend/out/btrsend if none is given
#
# An example is a line that begins with `$ ` in an indented or fenced block, with the lines below it
# up to the next one or to the end of the block. All run one after the other in one shell, in a
# scratch folder that has what docs/example has, with PROGRAM as the command `btrsend`. Examples
# with `btrfs` need root and a Btrfs: they are skipped, and counted. Nothing is proved or built
# here. Status 0 if all are right. Needs bash and python3.
here=$(CDPATH='' cd -- "$(dirname -- "$0")/.." && pwd) || exit 2
program=${1:-$here/crates/btrsend/out/btrsend}
[ -f "$program" ] && [ -x "$program" ] || { echo "there is no program $program" >&2; exit 2; }
program=$(CDPATH='' cd -- "$(dirname -- "$program")" && pwd)/$(basename -- "$program") || exit 2
folder=$(mktemp -d) || exit 2
trap 'rm -rf -- "$folder"' EXIT
trap 'exit 2' HUP INT TERM
mkdir "$folder/bin" && ln -s "$program" "$folder/bin/btrsend" && cp -R "$here/docs/example" "$folder/example" || exit 2
PATH=$folder/bin:$PATH
export PATH
python3 - "$here/README.md" "$folder/example" <<'PYTHON'
import re, subprocess, sys

page, folder = sys.argv[1:]

# The blocks of the page, each as its lines without indent.
def blocks_of(text):
    block, fenced = [], False
    for line in text.split('\n') + ['']:
        if line.startswith('```'):
            fenced = not fenced
            yield block
            block = []
        elif fenced:
            block.append(line)
        elif line.startswith('    '):
            block.append(line[4:])
        else:
            yield block
            block = []

# The examples of a block: the command, and the lines that are expected.
def examples_of(block):
    found = []
    for line in block:
        if line.startswith('$ '):
            found.append((line[2:], []))
        elif found:
            found[-1][1].append(line)
    return found

examples = [example for block in blocks_of(open(page).read()) for example in examples_of(block)]
tried = [example for example in examples if not re.search(r'\bbtrfs (send|receive)\b', example[0])]
script = 'exec 2>&1\n'
for number, (command, _) in enumerate(tried):
    script += "printf '\\n@example %d@\\n'\n%s\n" % (number, command)
done = subprocess.run(['bash', '-c', script], cwd=folder, stdin=subprocess.DEVNULL, stdout=subprocess.PIPE, timeout=300)
parts = re.split(r'\n@example \d+@\n', done.stdout.decode('utf-8', 'replace'))[1:]
right = 0
for number, (command, expected) in enumerate(tried):
    printed = parts[number].rstrip('\n').split('\n') if number < len(parts) else ['(it did not run)']
    expected = expected or ['']
    if printed == expected:
        right += 1
        print('right ', command)
    else:
        print('WRONG ', command)
        for line in expected:
            print('    README.md says:', line)
        for line in printed:
            print('    it prints:     ', line)
print('README.md: %d examples right, %d wrong, %d skipped' % (right, len(tried) - right, len(examples) - len(tried)))
sys.exit(right != len(tried) or not tried)
PYTHON
