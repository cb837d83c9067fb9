#!/bin/sh
# Looks at the words of what people read: README.md, the man page, `--help`, the explanations, and
# the pages in docs.
#
# - No private word is there for which there is a common one. The list below has those that can be
#   matched safely. Of pages in docs HEADLINE, ARCHITECTURE and CONTRACTS are looked at, without
#   their code.
# - No line is longer than 100 columns. Tables, examples and the output in them are not looked at.
#   README.md has at most 200 lines.
# - No sentence of README.md, of the man page and of four pages in docs has more than 25 words,
#   roughly counted: a piece of code counts as one. The quoted theorem is not looked at. No cell of
#   a table of these pages has more than one sentence.
#
# Nothing is proved or built here. Status 0 if all is right. Needs python3.
here=$(CDPATH='' cd -- "$(dirname -- "$0")/.." && pwd) || exit 2
cd -- "$here" || exit 2
python3 - <<'PYTHON'
import re, sys

# What is not said, and what is said in its place.
PRIVATE = [
    (r'stands? on|stood on|standing on', 'is based on; its parent is'),
    (r'(answers? that (is|are)|what is|is) due', 'the specified answer; the expected result'),
    (r'the receipt', 'acknowledgement'),
    (r'second lines?', 'explanation'),
    (r'(image|what) (that )?(may be|is) left', 'what a crash leaves'),
    (r'(un)?lawful(ly)?', 'valid, invalid'),
    (r'words?', 'command, or argument'),
    (r'what is asked', 'precondition'),
    (r'means? nothing', 'is not understood'),
    (r'is no text', 'is not valid UTF-8'),
    (r'a list of rows|a row of (files|streams)', 'chain'),
    (r'the outside', 'the base'),
]
PLAIN = ('docs/HEADLINE.md', 'docs/ARCHITECTURE.md', 'docs/CONTRACTS.md')
PAGES = PLAIN + ('docs/PROOFS.md', 'docs/DECISIONS.md', 'docs/DEFINITIONS.md', 'docs/FORMAT.md')
WIDTH, WORDS = 100, 25
wrong = 0

def complain(place, what):
    global wrong
    print('%s: %s' % (place, what))
    wrong += 1

def text_of(path):
    return open(path).read()

# The lines of a page that are prose: without tables, examples and quotations.
def prose(text):
    fenced = False
    for number, line in enumerate(text.split('\n'), 1):
        if line.startswith('```'):
            fenced = not fenced
        elif not fenced and not re.match(r'    |\||>|\[[^]]*\]: ', line):
            yield number, line

# The strings of a source of texts, with the number of the line of each piece.
def strings(text):
    for found in re.finditer(r'"((?:[^"\\]|\\.|\\\n)*)"', re.sub(r'^\s*//.*$', '', text, flags=re.M)):
        yield text.count('\n', 0, found.start()) + 1, found.group(1)

def look_for_private(path, pieces):
    for number, text in pieces:
        for private, common in PRIVATE:
            for found in re.finditer(r'\b(?:%s)\b' % private, text, re.S):
                line = number + text.count('\n', 0, found.start())
                complain('%s:%d' % (path, line), '"%s": say "%s"' % (' '.join(found.group().split()), common))

# ---- private words

# Paragraphs, so that words which a line end parts are found too.
def paragraphs(lines):
    found, begin = [], 0
    for number, line in lines:
        if not line.strip() or re.match(r' *(- |\d+\. )|#', line):
            if found:
                yield begin, '\n'.join(found)
            found = []
        if line.strip():
            begin = begin if found else number
            found.append(line)
    if found:
        yield begin, '\n'.join(found)

readme = text_of('README.md')
look_for_private('README.md', paragraphs(prose(readme)))
look_for_private('README.md', [(number, line) for number, line in enumerate(readme.split('\n'), 1) if line.startswith('|')])
manual = text_of('docs/btrsend.1')
look_for_private('docs/btrsend.1', [(1, '\n'.join('' if line.startswith('.\\"') else line for line in manual.split('\n')))])
for path in ('crates/host_io/src/help.rt', 'crates/host_io/src/advice.rt'):
    look_for_private(path, strings(text_of(path)))

for path in PLAIN:
    text = re.sub(r'`[^`]*`', lambda code: 'code' + '\n' * code.group().count('\n'), text_of(path))
    look_for_private(path, paragraphs(prose(text)))

# ---- columns and lines

if readme.count('\n') > 200:
    complain('README.md', '%d lines' % readme.count('\n'))

OTHERS = ('README.md', 'CONTRIBUTING.md', 'CHANGELOG.md', 'trials/README.md', 'bench/README.md')
for path in OTHERS + PAGES:
    for number, line in prose(text_of(path)):
        if len(line) > WIDTH:
            complain('%s:%d' % (path, number), '%d columns' % len(line))
for number, line in enumerate(manual.split('\n'), 1):
    if len(line) > WIDTH and not line.startswith('\\fB'):
        complain('docs/btrsend.1:%d' % number, '%d columns' % len(line))
for path in ('crates/host_io/src/help.rt', 'crates/host_io/src/advice.rt'):
    for number, line in enumerate(text_of(path).split('\n'), 1):
        if len(line) > WIDTH:
            complain('%s:%d' % (path, number), '%d columns' % len(line))

# ---- sentences

def look_at_sentences(path, pieces):
    for number, text in pieces:
        for sentence in re.split(r'[.!?](?=\s|$)', text.replace('\n', ' ')):
            count = len(re.findall(r'[A-Za-z0-9]\S*', sentence))
            if count > WORDS:
                complain('%s:%d' % (path, number), '%d words: %s ..' % (count, ' '.join(sentence.split()[:8])))

def plain(text):
    text = re.sub(r'\[([^\]]*)\]\([^)]*\)', r'\1', text)
    return re.sub(r'`[^`]*`', 'code', text).replace('*', '')

# The paragraphs of the man page that are prose, each with the number of its first line. What an
# entry is called is none. An explanation says what is wrong, and behind a colon what to do, which
# counts as two sentences.
def manual_paragraphs(text):
    found, begin, filled, before = [], 0, True, ''
    text = re.sub(r'(?<=^\.\\" EXPLANATION ).*?(?=^\.\\" END)', lambda said: re.sub('[:;] ', '. ', said.group()), text, flags=re.M | re.S)
    for number, line in enumerate(text.split('\n') + ['.PP'], 1):
        request = re.match(r'\.([A-Za-z]+|\\")', line)
        if before == '.TP':
            request = re.match('(TP)', 'TP')
        before = line
        if line.startswith(('.nf', '.fi')):
            filled = line.startswith('.fi')
        if request and not re.match(r'[BIR]{1,2}$', request.group(1)):
            if found:
                yield begin, ' '.join(found)
            found = []
        elif filled and line:
            begin = begin if found else number
            line = re.sub(r'^\.[BIR]{1,2} ', '', line)
            found.append(re.sub(r'\\f[BIPR]|\\[|&%]', '', line).replace('"', ''))

look_at_sentences('README.md', [(at, plain(text)) for at, text in paragraphs(prose(readme)) if not text.startswith('#')])
look_at_sentences('docs/btrsend.1', manual_paragraphs(manual))
for path in PLAIN + ('docs/PROOFS.md',):
    page = text_of(path)
    pieces = [(at, plain(text)) for at, text in paragraphs(prose(page))]
    look_at_sentences(path, [(at, text) for at, text in pieces if not text.startswith('#')])
    for number, line in enumerate(page.split('\n'), 1):
        if line.startswith('|') and re.search(r'[.!?] +[A-Z]', plain(line)):
            complain('%s:%d' % (path, number), 'a cell of more than one sentence')

print('words.sh: %s' % ('all right' if not wrong else '%d wrong' % wrong))
sys.exit(wrong != 0)
PYTHON
