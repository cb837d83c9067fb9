#!/bin/sh
# Makes docs/DEFINITIONS.md from the sources: each definition that the promises of the program are
# made of, with its comment, and how many of them stand behind each clause of `run`.
#
#   definitions.sh                  compares
#   definitions.sh --write          writes the page anew
#   definitions.sh --names CLAUSE   lists what stands behind a clause
#
# Crates and modules come in the order in which they build on each other. A definition without a
# comment of its own is put to the one before it. What stands behind a clause is counted by name:
# the definitions that it names, those that these name, and so on, through the imports. Status 0 if
# the page is right. Needs python3.
here=$(CDPATH='' cd -- "$(dirname -- "$0")/.." && pwd) || exit 2
cd -- "$here" || exit 2
exec python3 - "$@" <<'PYTHON'
import os
import re
import sys
import textwrap

PAGE, WIDTH = 'docs/DEFINITIONS.md', 100
CRATES = [
    ('send_model', 'streams, subvolumes, stores, and what `compose` and `export` promise'),
    ('store_model', 'the file of a store, and what each command over it answers'),
    ('snapshot_model', 'a snapshot as a stream: `send` and `restore`'),
    ('text_model', 'streams as text'),
    ('program_model', 'the requests of the program, and its answers'),
    ('sx_base', 'what files, outputs and disks are to the program'),
    ('request_answers', 'what each request is answered, over the objects outside'),
    ('send_top', 'what a run promises'),
]
# The modules of a crate that are listed, where it is not all of them.
ONLY = {'request_answers': ['Objects', 'Promises'], 'send_top': ['Clauses']}
CLAUSES = [
    ('MeansNothing', 'arguments that are not understood'),
    ('Touches', 'what is read, written and used'),
    ('IsCaused', 'why a status comes'),
    ('Answers', 'status, message, output and store'),
    ('IsMerged', 'the headline'),
    ('IsExported', '`export`'),
    ('IsSent', '`send` and `restore`'),
    ('IsCrashSafe', 'crashes'),
    ('IsAcknowledged', 'acknowledged snapshots'),
]

# ---- reading a module

BEGINS = re.compile(r"(?:\s*(?:abbrev|unfoldable) (?:pub )?|\s*pub (?:record|data) "
                    r"|record (?=[A-Z])|data (?=[A-Z]))([^\W\d][\w']*|◌\S+◌)")

# The text of lines of comments.
def joined(comment):
    return ' '.join(line.lstrip()[2:].strip() for line in comment)

def is_comment(line):
    return line.lstrip().startswith('--')

def is_part(line):
    return line.lstrip().startswith('-- ----')

# The comment right above a line, if there is one.
def comment_above(lines, at):
    end = at
    while lines[end - 1].startswith('infixl'):
        end -= 1
    begin = end
    while begin and is_comment(lines[begin - 1]) and not is_part(lines[begin - 1]):
        begin -= 1
    return joined(lines[begin:end]) if begin < end else None

class Definition:
    def __init__(self, where, name, lines):
        self.where, self.name, self.lines = where, name, lines

# A module: its head comment; its entries, which are headings of parts and public definitions with
# their comments; what each of its names is, constructors too; and where imported names are from.
class Module:
    def __init__(self, crate, name, path):
        self.crate, self.name = crate, name
        self.entries, self.words, self.imports, self.aliases = [], {}, {}, {}
        lines = open(path).read().split('\n')
        first = next(at for at, line in enumerate(lines) if not is_comment(line))
        self.head = joined(lines[:first])
        for line in lines:
            self.read_import(line)
        begins = [at for at, line in enumerate(lines) if BEGINS.match(line)]
        ends = begins[1:] + [len(lines)]
        for at, line in enumerate(lines):
            if is_part(line):
                self.entries.append(('part', line.lstrip()[8:], None))
            elif begins and at == begins[0]:
                self.read_definition(lines, begins.pop(0), ends.pop(0))

    def read_import(self, line):
        found = re.match(r'use Rattle\.(\w+)\.specs\.(\w+)\.\{(.*)\}$', line)
        if found:
            for name in found.group(3).split(','):
                self.imports[name.strip()] = (found.group(1), found.group(2))
        found = re.match(r'use Rattle\.(\w+)\.specs\.(\w+) as (\w+)$', line)
        if found:
            self.aliases[found.group(3)] = (found.group(1), found.group(2))

    def read_definition(self, lines, begin, end):
        name, body = BEGINS.match(lines[begin]).group(1), lines[begin:end]
        while not body[-1].strip() or is_comment(body[-1]) or body[-1].startswith('infixl'):
            body.pop()
        definition = Definition(self, name, body)
        self.words[name] = definition
        if re.match(r'\s*(pub )?data ', body[0]):
            for line in body[1:]:
                constructor = re.match(r'\s+([A-Z]\w*) :', line)
                if constructor:
                    self.words[constructor.group(1)] = definition
        if re.search(r'\bpub\b', body[0].split(':')[0]):
            comment = comment_above(lines, begin)
            if comment is None and self.entries and self.entries[-1][0] == 'definitions':
                self.entries[-1][1].append(name)
            else:
                self.entries.append(('definitions', [name], comment))

modules = {}

def module(crate, name):
    if (crate, name) not in modules:
        path = 'crates/%s/specs/%s.antt' % (crate, name)
        modules[crate, name] = Module(crate, name, path) if os.path.exists(path) else None
    return modules[crate, name]

def modules_of(crate):
    listed = re.findall(r'pub mod (\w+)', open('crates/%s/specs/Lib.antt' % crate).read())
    return [module(crate, name) for name in listed if name in ONLY.get(crate, listed)]

# ---- what stands behind a name

# A dot that ends the arguments of a lambda has a blank behind it, and is left out. That of a field
# or of a module has none.
TOKEN = re.compile(r"[^\W\d][\w']*|\.(?!\s)|>>=|>>|[^\s.]")

# The definition that a name means in a module.
def meant(where, name):
    if name in where.words:
        return where.words[name]
    other = module(*where.imports[name]) if name in where.imports else None
    return other.words.get(name) if other else None

def named_by(definition):
    where, found = definition.where, set()
    tokens = TOKEN.findall('\n'.join(definition.lines))
    if 'do' in tokens:
        tokens += ['>>=', '>>']
    for at, token in enumerate(tokens):
        if at and tokens[at - 1] == '.':
            alias = where.aliases.get(tokens[at - 2])
            other = module(*alias) if alias else None
            word = other.words.get(token) if other else None
        else:
            word = meant(where, '◌' + token + '◌' if token in ('>>=', '>>') else token)
        if word:
            found.add(word)
    return found

def behind(definition):
    found, left = set(), [definition]
    while left:
        one = left.pop()
        if one not in found:
            found.add(one)
            left += named_by(one)
    return found

clauses = module('send_top', 'Clauses')

if sys.argv[1:2] == ['--names']:
    found = behind(clauses.words[sys.argv[2]])
    print('\n'.join(sorted(' '.join((it.where.crate, it.where.name, it.name)) for it in found)))
    sys.exit(0)

# ---- the page

out = []

def put(text, then=''):
    out.extend(textwrap.wrap(text, WIDTH, subsequent_indent=then, break_long_words=False,
                             break_on_hyphens=False) or [''])

def put_row(name, what, found):
    lines = sum(1 for it in found for line in it.lines if line.strip() and not is_comment(line))
    crates = len({it.where.crate for it in found})
    out.append('| %s | %s | %d | %d | %d |' % (name, what, len(found), lines, crates))

def put_module(it):
    out.extend(['', '### [`%s`](../crates/%s/specs/%s.antt)' % (it.name, it.crate, it.name), ''])
    if it.head:
        put(it.head)
        put('')
    for kind, names, comment in it.entries:
        if kind == 'definitions':
            listed = ', '.join('`%s`' % name for name in names)
            put('- ' + listed + (': ' + comment if comment else ''), '  ')
        else:
            out.extend([''] if out[-1] else [])
            out.extend(['**%s**' % names, ''])
    while not out[-1]:
        out.pop()

put('# The definitions, one by one')
put('')
put('This appendix is for whoever looks up a definition: it says of each name what it means, in '
    'the words of its comment. [HEADLINE.md](HEADLINE.md) is the way to read them. '
    '`trials/definitions.sh --write` makes this page from the sources. A name without a comment of '
    'its own is put to the one before it.')
put('')
put('## How much stands behind each clause of `run`')
put('')
put('A clause names definitions, and these name others. All of them are counted, in whatever '
    'crate, with their lines without comments. Not counted are those of the Rattle kit, and the traits of '
    'files, outputs and disks in `crates/sx_base/src`.')
put('')
out.append('| clause | of what | definitions | lines | crates |')
out.append('|---|---|---|---|---|')
together = set()
for number, (name, what) in enumerate(CLAUSES, 1):
    put_row('%d `%s`' % (number, name), what, behind(clauses.words[name]))
    together |= behind(clauses.words[name])
put_row('all nine', '', together)
headline = module('send_model', 'Headline').words['IsComposedOf']
put_row('`IsComposedOf`', 'the sentence of `compose` alone', behind(headline))
for crate, what in CRATES:
    out.extend(['', '## `%s`: %s' % (crate, what)])
    for it in modules_of(crate):
        put_module(it)

new = '\n'.join(out) + '\n'
old = open(PAGE).read() if os.path.exists(PAGE) else ''
if sys.argv[1:] == ['--write']:
    open(PAGE, 'w').write(new)
    print('written: ' + PAGE)
elif new != old:
    print(PAGE + ' says something else than the sources: definitions.sh --write')
    sys.exit(1)
print('definitions.sh: all right')
PYTHON
