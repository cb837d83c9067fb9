#!/bin/sh
# The parts of the man page that say what the program says: its version, its SYNOPSIS, which is the
# usage of `--help`, and the explanation of each message and each refusal. The last two are between
# lines of their own, which name them. All come from the program's texts in the sources of
# `host_io`: help.rt and advice.rt. With --write they are written anew. Without it they are
# compared, and each line that differs is printed. The rest of the man page is written by hand. Each
# command of the usage, each status and each refusal must have one entry there, README.md must name
# each command, and the same message for each status, CHANGELOG.md must begin with the version, and
# `man` must warn of nothing. Nothing is proved or built here. Status 0 only if all is right. Needs
# python3 and man.
here=$(CDPATH='' cd -- "$(dirname -- "$0")" && pwd)/.. || exit 2
cd -- "$here" || exit 2
case $*: in
: | --write:) ;;
*) echo "usage: $0 [--write]" >&2; exit 2 ;;
esac
python3 - "$@" <<'PYTHON' || exit 1
import difflib
import re
import sys
import textwrap

MANUAL = 'docs/btrsend.1'
ADVICE = 'crates/host_io/src/advice.rt'
HELP = 'crates/host_io/src/help.rt'
NUMBERS = 'crates/sx_base/src/refusal.rt'
wrong = 0

def complain(what):
    global wrong
    print(what)
    wrong += 1

# ---- how texts are spelled in the manual

# Text as it is.
def plain(text):
    for char, spelled in (('\\', '\\e'), ('-', '\\-'), ('^', '\\(ha'), ('`', '\\(ga')):
        text = text.replace(char, spelled)
    return '\\&' + text if text[:1] in ('.', "'") else text

# Words of a call: those to be written as they are in bold, and those that stand for others, in
# capitals, in italics.
def call(text):
    line = ''
    for token in re.findall(r'[A-Z][A-Z_]*|(?:--)?[a-z][a-z0-9:]*|\.\.|.', text):
        if token == '..':
            line += '.\\|.\\|.' if line.endswith(' ') else ' .\\|.\\|.'
        elif re.match(r'[A-Z]', token):
            line += '\\fI' + token + '\\fP'
        elif re.match(r'[a-z]|--', token):
            line += '\\fB' + plain(token) + '\\fP'
        else:
            line += plain(token)
    return line

# ---- what the sources say

# A backslash at the end of a line, and the indent of the next one, are no part of a text.
def joined(source):
    return re.sub(r'\\\n\s*', '', source)

advice = joined(open(ADVICE).read())
help = open(HELP).read()
constants = dict(re.findall(r'const ([A-Z_]+): &str =\s*"([^"]*)";', advice))

# The rows of a table of names and sentences.
def rows(table):
    text = re.search(r'const ' + table + r'\b.*?= \[(.*?)\n\];', advice, re.S).group(1)
    found = re.findall(r'\(\s*b?"([^"]*)",\s*(?:"([^"]*)"|([A-Z_]+)),?\s*\)', text)
    return [(name, said or constants[constant]) for name, said, constant in found]

# The sentences of the arms of a function, each of which has one, or asks another function of this
# form.
def arms(function):
    text = re.search(r'fn ' + function + r'\b.*?\n}', advice, re.S).group(0)
    found = re.findall(r'=>\s*\{?\s*"([^"]*)"', text)
    if len(found) + len(re.findall(r'=>\s*about_', text)) != text.count('=>'):
        complain('%s: %d sentences of %s are read, and there are others' % (ADVICE, len(found), function))
    return found

# A sentence with what stands for values in it, and the values that it takes.
def with_values(function, **values):
    said = re.search(r'fn ' + function + r'\b.*?"([^"]*)"', advice, re.S).group(1)
    return re.sub(r'\{(\w+)\}', lambda name: values[name.group(1)], said)

refusals = rows('REFUSALS')
numbers = dict(re.findall(r'Refusal::(\w+)(?:\(_\)| \{ \.\. \})? => (\d+),', open(NUMBERS).read()))
notes = rows('NOTES') + [('damaged', constants['DAMAGED'])]
version = re.search(r'const VERSION: &str = "(.*)\\n";', help).group(1)
usage = [line.replace('usage: ', '').strip() for line in re.search(r'\nusage: .*?\n\n', help, re.S).group(0).strip().split('\n')]

# That each row of the sources was found.
for table, found in (('REFUSALS', refusals), ('NOTES', notes[:-1])):
    if 'const %s: [' % table not in advice or '; %d] = [' % len(found) not in re.search('const %s.*' % table, advice).group(0):
        complain('%s: %d rows of %s are read, and there are others' % (ADVICE, len(found), table))
for name, _ in refusals:
    if name not in numbers:
        complain('%s: no number of %s is read' % (NUMBERS, name))
if not all(line.startswith('btrsend ') for line in usage):
    complain(HELP + ': the usage is not read')

# ---- the parts

def synopsis():
    lines = []
    for line in usage:
        lines += ['.br', call(line)]
    return lines[1:]

# What the explanation of a message or a refusal is, by its name: one sentence, or several.
explanations = {}
for name, said in notes:
    explanations.setdefault(name, []).append(said)
explanations['not a store'] = explanations.pop('not a store 0') + explanations['not a store']
explanations['output fault'] += [said for name, said in constants.items() if name.startswith('TO_')]
explanations['not a store'][1:1] = arms('about_no_store')
explanations['missing'] += [constants['UNFINISHED']]
explanations['usage'] = arms('about_words') + arms('about_forms')
explanations['input fault'] = arms('about_input')
explanations['store fault'] = list(dict.fromkeys(arms('about_store') + arms('about_unopened')))
restored = with_values('about_restored', uuid='UUID', ctransid='M', stored='N')
first = {}
for name, said in refusals:
    explanations[name] = [said if said not in first else 'that of ' + first[said]]
    first.setdefault(said, numbers[name])
explanations['BadMagic'] += arms('about_no_stream')
for name in ('NoParent', 'NoSource'):
    explanations[name] += [constants['BEGUN'], restored]

def explanation(name):
    said = explanations[name]
    if len(said) == 1:
        return ['.br'] + filled('\\fBExplanation\\fP: ' + plain(said[0]) + '.')
    lines = ['.br', '\\fBExplanation\\fP, one of these:', '.RS']
    for one in said:
        lines += ['.IP \\(bu 2'] + filled(plain(one))
    return lines + ['.RE']

# Lines of at most 100 columns. One that begins like a request is no request.
def filled(text):
    lines = textwrap.wrap(text, 100, break_long_words=False, break_on_hyphens=False)
    return ['\\&' + line if line[:1] in ('.', "'") else line for line in lines]

# The page with these lines between the line that begins a part and the one that ends it.
def put(page, begin, end, lines):
    before, begins, rest = page.partition('\n' + begin + '\n')
    _, ends, after = rest.partition(end + '\n')
    if not ends or begin + '\n' in after:
        complain('the man page has not one part ' + begin)
        return page
    return before + begins + '\n'.join(lines) + '\n' + ends + after

old = open(MANUAL).read()
new = re.sub(r'(?m)^(\.TH BTRSEND 1 \S+) "[^"]*"', lambda begin: '%s "%s"' % (begin.group(1), version), old)
if 'TH BTRSEND 1' not in old or '"%s"' % version not in new:
    complain('the man page has no version')
new = put(new, '.\\" BEGIN SYNOPSIS', '.\\" END SYNOPSIS', synopsis())
for name in explanations:
    new = put(new, '.\\" EXPLANATION ' + name, '.\\" END', explanation(name))
for name in re.findall(r'^\.\\" EXPLANATION (.*)$', new, re.M):
    if name not in explanations:
        complain('the man page explains %s, and the program does not' % name)

# ---- what is written by hand

def entries(text, what):
    return len(re.findall(r'^\.TP\n' + what, text, re.M))

readme = open('README.md').read()
of_calls = new[new.index('.SH COMMANDS'):new.index('.SH "NAMES AND PARENTS"')]
for line in usage:
    for word in re.findall(r'--[a-z]+', line) or [line.split()[1]]:
        if entries(of_calls, r'\.\w+ .*?' + re.escape(plain(word)) + r'\b') < 1:
            complain('the man page has no entry of ' + word)
        if word not in ('--help', '--version', 'gen', 'trial') and not re.search(r'^\|.*\| `%s ' % word, readme, re.M):
            complain('README.md has no row for ' + word)
of_refusals = new[new.index('.SH REFUSALS'):new.index('.SH STORES')]
for name, _ in refusals:
    if entries(of_refusals, r'\.BI? "?%s %s\b' % (numbers[name], name)) != 1:
        complain('the man page has not one entry of the refusal %s %s' % (numbers[name], name))

changes = re.search(r'(?m)^## (\S+)', open('CHANGELOG.md').read()).group(1)
if version != 'btrsend ' + changes:
    complain('CHANGELOG.md begins with %s, and the program is %s' % (changes, version))

# The statuses of the man page, each with its message, and those of README.md.
of_statuses = new[new.index('.SH "EXIT STATUS"'):new.index('.SH REFUSALS')]
in_manual = []
for entry in re.findall(r'^\.TP\n(?:\.B |\\fB)(\d.*)$', of_statuses, re.M):
    number, _, message = re.sub(r'\\f[BIP]|\\\||\\&', '', entry).partition(' ')
    in_manual.append((number, message.replace('...', '..')))
in_readme = re.findall(r'^\| (\d+) \| (?:`([^`]*)` )?\|', readme, re.M)
if [number for number, _ in in_manual] != [str(number) for number in range(15)]:
    complain('the man page has the statuses ' + ' '.join(number for number, _ in in_manual))
for one in sorted(set(in_manual) ^ set(in_readme), key=lambda one: int(one[0])):
    complain('%s alone has the status %s %s' % ('README.md' if one in in_readme else 'the man page', *one))

if wrong:
    sys.exit(1)
if new != old and sys.argv[1:] == ['--write']:
    open(MANUAL, 'w').write(new)
    print('written: ' + MANUAL)
elif new != old:
    sys.stdout.writelines(difflib.unified_diff(old.splitlines(True), new.splitlines(True), MANUAL, 'the program says'))
    sys.exit(1)
PYTHON
warned=$(LC_ALL=C.UTF-8 MANWIDTH=100 man --warnings -l docs/btrsend.1 2>&1 >/dev/null)
[ -z "$warned" ] || { printf '%s\n' "$warned"; exit 1; }
echo "all right"
