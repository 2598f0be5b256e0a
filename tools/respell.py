#!/usr/bin/env python3
"""Brings the repository's own definitions and lemmas to the spelling of the newer Rattle.

Run once, at the top, right after the toolchain's own port script. A word is in snake case, a dash joins the names of two words, and a plain
word is added with an underscore: `isSound` becomes `is_sound`, `length-bytesAt` `length-bytes_at`, `write-within` `write_within`. Types and
modules keep their capitals, names from the code their spelling. It turns specs/, proofs/, the clauses and comments of src/, the must-fail
edits, and in the pages what stands between backquotes.
"""
import collections
import glob
import re
import sys

ANTT = sorted(glob.glob('crates/*/specs/**/*.antt', recursive=True) + glob.glob('crates/*/proofs/**/*.antt', recursive=True))
CODE = sorted(glob.glob('crates/*/src/*.rt'))
EDITS = sorted(glob.glob('crates/*/must-fail/*.edit'))
PAGES = ['README.md', 'CHANGELOG.md'] + sorted(glob.glob('docs/**/*.md', recursive=True))
OWN = sorted({f.split('/')[1] for f in ANTT + CODE})

# What stands between separators is a token; a field's dot separates too.
TOKEN = re.compile(r'[^\s(){}\[\].,;∷`"⌜⌝=|]+')
# Words that mean a law of any definition and are spelled as a name of std: they count as plain words.
PLAIN = {'all', 'any', 'end', 'is', 'of', 'at', 'in', 'to', 'or', 'and', 'not', 'none', 'first', 'last', 'number', 'text', 'le', 'lt', 'eq'}


def snake(part):
    """One part of a name: `bytesAt` to `bytes_at`; a type keeps its capitals."""
    if not re.match(r'[a-z]', part) or not re.search(r'[A-Z]', part):
        return part
    part = re.sub(r'([A-Z]+)([A-Z][a-z])', r'\1_\2', part)
    part = re.sub(r'([a-z0-9])([A-Z])', r'\1_\2', part)
    return part.lower()


def read(path):
    with open(path, encoding='utf-8') as f:
        return f.read()


def without_comments(text):
    return re.sub(r'--.*', '', text)


def signatures(text):
    """The names that a file of antt declares: definitions, constructors, fields, and those of a `where`."""
    for line in without_comments(text).split('\n'):
        head = line.split(' : ')[0].split()
        while head and head[0] in ('pub', 'unfoldable', 'abbrev', 'let'):
            head = head[1:]
        if ' : ' in line and not re.search(r'[(){}:.,;=]', ''.join(head)):
            yield from head


def library_names(texts):
    """The names that the repository imports from the toolchain's libraries, which keep their spelling."""
    names = set()
    for text in texts:
        for module, items in re.findall(r'^\s*(?:ghost |pub )?use ([\w.·+]+)\.\{([^}]*)\}', text, re.M):
            if not re.match(r'Rattle\.(%s)\b' % '|'.join(OWN), module):
                names.update(i.strip().split(' as ')[0] for i in items.split(','))
    return names


def renamings():
    texts = {f: read(f) for f in ANTT}
    code = [read(f) for f in CODE]
    library = library_names(list(texts.values()) + code)
    declared, words = set(), set()
    for path, text in texts.items():
        names = set(signatures(text))
        # A folder of proofs/ holds answers, whose names are those of the goals.
        if len(path.split('/')) == 4:
            declared |= names
        words |= {n for n in names if '-' not in n and len(path.split('/')) == 4}
    words = {snake(w) for w in words if len(w) > 2} | {w for w in library if '-' not in w and len(w) > 2}
    words -= PLAIN

    tokens = set()
    for text in texts.values():
        tokens.update(TOKEN.findall(without_comments(text)))
    standing = {n for n in declared if '-' not in n and snake(n) == n}
    renamed = {}
    # First the words, whose spelling the lemmas follow. One that spells a function of the code is that function's word.
    for name in sorted(tokens - library):
        new = '-'.join('get_or' if p == 'getD' else snake(p) for p in name.split('-'))
        if new != name:
            renamed[name] = new
    # A lemma that would have its function's name says that it is the lemma. `no_kind` are two constructors and a lemma, of three modules
    # that no file names together.
    for name in ('field_fits', 'string_bytes', 'table_fits'):
        if name in standing and name in renamed.values():
            renamed[name] = name + '_lem'
            standing.remove(name)
    for name in sorted(declared - library):
        parts = renamed.get(name, name).split('-')
        if len(parts) > 1 and all(re.match(r"[\w'₀-₉]+$", p) for p in parts):
            new = parts[0]
            for before, part in zip(parts, parts[1:]):
                new += ('-' if before in words and part in words else '_') + part
            others = {v for k, v in renamed.items() if k != name}
            if new != name and new in standing | others | library:
                new += '_lem'
            if new != name:
                renamed[name] = new
    targets = collections.Counter(renamed.values())
    for name, new in renamed.items():
        if targets[new] > 1 or new in standing:
            print('respell: falls together: %s, %s' % (name, new), file=sys.stderr)
    return renamed


def turn(text, renamed):
    return TOKEN.sub(lambda m: renamed.get(m.group(0), m.group(0)), text)


def with_capital(renamed):
    """Of the renamings those that no prose can mean."""
    return {k: v for k, v in renamed.items() if re.search(r'[a-z][A-Z]', k)}


def turn_antt(text, renamed):
    """Code by every renaming; comments by the names with a capital, and between backquotes by every one."""
    lines, capital = [], with_capital(renamed)
    for line in text.split('\n'):
        m = re.search(r'(^|\s)--(\s|$)', line)
        at = m.start() if m else len(line)
        lines.append(turn(line[:at], renamed) + turn_comment(line[at:], renamed, capital))
    return '\n'.join(lines)


def turn_comment(text, renamed, capital):
    text = re.sub(r'`[^`]*`', lambda m: turn(m.group(0), renamed), text)
    return turn(text, capital)


def turn_code(text, renamed):
    """Clauses, ghost lines and comments; no code has such a name."""
    return turn(text, with_capital(renamed))


def turn_page(text, renamed):
    return re.sub(r'`[^`\n]+`', lambda m: turn(m.group(0), renamed), text)


def main():
    renamed = renamings()
    for paths, how in ((ANTT, turn_antt), (CODE, turn_code), (EDITS, turn), (PAGES, turn_page)):
        for path in paths:
            old = read(path)
            new = how(old, renamed)
            if new != old:
                with open(path, 'w', encoding='utf-8') as f:
                    f.write(new)
    for name in sorted(renamed):
        print(name, renamed[name])


main()
