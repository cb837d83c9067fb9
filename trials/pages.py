"""Parts of pages that scripts of this folder make: what stands between two marks."""
import sys


def keep(page, marks, lines, script, wrong):
    """Compares the part of a page between two marks with lines, or writes it for `--write`.

    `wrong` says what is wrong if the page has other lines."""
    begin, end = marks
    text = open(page).read()
    before, begins, rest = text.partition(begin)
    old, ends, after = rest.partition(end)
    if not ends:
        sys.exit('%s has no place between %s and %s' % (page, begin.strip(), end.strip()))
    new = before + begins + ''.join(lines) + ends + after
    if sys.argv[1:] == ['--write']:
        open(page, 'w').write(new)
        print('written: ' + page)
    elif new != text:
        sys.exit('%s %s: %s --write' % (page, wrong, script))
