#!/usr/bin/env python3
"""Spells the repository's own definitions and laws as this toolchain's library spells its own: words in snake case.

    tools/respell.py [--check] [FOLDER]      the repository that this script stands in, or the one at FOLDER

It goes by respell.tsv beside it: a row for each name, the old spelling, a tab, the new one. A name turns as a whole word
  .antt   everywhere, comments too
  .rt     in code, clauses and comments, but in no string
  .edit   as in the file that the edit is of
  .md     in code spans and fenced blocks; a name in camel case also in prose
In a comment and in prose a name with a dash turns in code spans alone, since there it may be plain words. Pages that
tell of older names stay as they are: CHANGELOG.md, docs/CHANGES.md and docs/PORT.md.

It also names the lowest crate waymaker_core where it is still called core, since the toolchain has a library core: the
folder, crates.txt and the paths, those too that the toolchain's own script took for paths of std.

Names of functions, strings, inputs and outputs are in no row. Each file that changes is named; --check writes nothing.
A second run changes nothing. The status is 0, or 2 if a file cannot be read or written.
"""
import os
import re
import shutil
import sys

HERE = os.path.dirname(os.path.abspath(__file__))
WORD = re.compile(r"(?<![\w'′-])[^\W\d][\w'′-]*")
SPAN = re.compile(r'`[^`\n]*`')
FENCE = re.compile(r'^( *)```[^\n]*\n.*?^\1``` *$', re.S | re.M)
ANTT = re.compile(r'--[^\n]*')
RT = re.compile(r'//[^\n]*|"(?:\\.|[^"\\])*"', re.S)
CORE = ('declared|Kinds|Refusals', 'Choice|Answered|Table')
KINDS = ('.antt', '.rt', '.edit', '.md')
HISTORY = ('CHANGELOG.md', os.path.join('docs', 'CHANGES.md'), os.path.join('docs', 'PORT.md'))


def refuse(message):
    print(f'tools/respell.py: {message}', file=sys.stderr)
    sys.exit(2)


def rows():
    table = {}
    with open(os.path.join(HERE, 'respell.tsv'), encoding='utf-8') as lines:
        for line in lines:
            old, new = line.rstrip('\n').split('\t')
            table[old] = new
    return table


TABLE = rows()


def words(text, dashes=True):
    """The text with each name of a row turned; without dashes, only names in camel case."""
    def turned(match):
        name = match[0]
        return TABLE.get(name, name) if dashes or '-' not in name else name
    return WORD.sub(turned, text)


def prose(text):
    """A comment's or a page's text: names with a dash turn in code spans alone."""
    def rest(part):
        return words(part, dashes=False)
    out, end = [], 0
    for span in SPAN.finditer(text):
        out += [rest(text[end:span.start()]), words(span[0])]
        end = span.end()
    return ''.join(out + [rest(text[end:])])


def around(pattern, inside, outside):
    """What matches the pattern goes through inside, the rest through outside."""
    def turned(text):
        out, end = [], 0
        for match in pattern.finditer(text):
            out += [outside(text[end:match.start()]), inside(match[0])]
            end = match.end()
        return ''.join(out + [outside(text[end:])])
    return turned


TURN = {
    '.antt': around(ANTT, prose, words),
    '.rt': around(RT, lambda text: prose(text) if text.startswith('//') else text, words),
    '.md': around(FENCE, words, prose),
}


def edit(text):
    """An edit's lines, each as in the file that the edit is of."""
    file = re.search(r'(?m)^file: (\S+)', text)
    return TURN[os.path.splitext(file[1])[1]](text) if file else text


def paths(text):
    """Paths of the lowest crate, once called core."""
    text = re.sub(r'\bRattle\.(?:core|std)\.specs\.(?=(?:%s)\b)' % CORE[0], 'Rattle.waymaker_core.specs.', text)
    text = re.sub(r'\bRattle\.(?:core|std)\.proofs\.(?=(?:%s)\b)' % CORE[1], 'Rattle.waymaker_core.proofs.', text)
    text = re.sub(r'\bRattle\.core\.proofs\.(?=record\b|timer\b)', 'Rattle.waymaker_core.proofs.', text)
    return re.sub(r'\buse core::(?=(?:activity|error|id|record|timer|version)\b)', 'use waymaker_core::', text)


def files(root):
    for folder, folders, names in os.walk(root):
        folders[:] = sorted(name for name in folders if name not in ('.git', 'out', 'target'))
        for name in sorted(names):
            if name.endswith(KINDS) and not os.path.islink(os.path.join(folder, name)):
                yield os.path.join(folder, name)


def rename_core(root, write):
    """Whether the lowest crate was called core; it is renamed."""
    old, new = (os.path.join(root, 'crates', name) for name in ('core', 'waymaker_core'))
    if not os.path.isdir(old) or os.path.isdir(new):
        return False
    print(old)
    if write:
        shutil.move(old, new)
    change(os.path.join(root, 'crates.txt'), write, crate_names)
    return True


def crate_names(text):
    return '\n'.join(line if line.startswith('#') else re.sub(r'(?<!\S)core(?=[:\s]|$)', 'waymaker_core', line)
                     for line in text.split('\n'))


def change(path, write, turn):
    try:
        with open(path, encoding='utf-8', newline='') as source:
            before = source.read()
        after = turn(before)
        if after != before:
            print(path)
            if write:
                with open(path, 'w', encoding='utf-8', newline='') as target:
                    target.write(after)
    except (OSError, UnicodeDecodeError) as error:
        refuse(f'{path}: {getattr(error, "strerror", None) or error}')


def main(args):
    if args and args[0] in ('--help', '-h'):
        print(__doc__)
        return 0
    write = '--check' not in args
    given = [word for word in args if word != '--check']
    if len(given) > 1 or any(word.startswith('-') for word in given):
        refuse('see --help')
    root = given[0] if given else os.path.dirname(HERE)
    if not os.path.isdir(os.path.join(root, 'crates')):
        refuse(f'{root} has no crates')
    named_core = rename_core(root, write)
    for path in files(root):
        kind = os.path.splitext(path)[1]
        if os.path.relpath(path, root) in HISTORY:
            continue
        turn = edit if kind == '.edit' else TURN[kind]
        change(path, write, (lambda text: paths(turn(text))) if named_core else turn)
    return 0


if __name__ == '__main__':
    sys.exit(main(sys.argv[1:]))
