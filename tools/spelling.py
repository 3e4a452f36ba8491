#!/usr/bin/env python3
"""Spells this repository's own definitions and lemmas as today's Rattle does: words in snake case (`nodesOf` becomes
`nodes_of`, `every-at` becomes `every_at`). Types and modules keep their names, as do the functions of src/, exported
names, strings, inputs and outputs.

    tools/spelling.py            at the top of the repository, once, right after the toolchain's own script
    tools/spelling.py --list     prints old and new names, and changes nothing: at the same place

Where a lemma would get the name of a definition, or of another lemma that stood before it, it gets `_lem`.
"""
import glob
import os
import re
import sys

SUB = '\u2080-\u209c'
LETTERS = "A-Za-z0-9_'\u2032" + SUB
WORD = re.compile(r"(?<![%s-])[A-Za-z_][%s]*(?:-[%s]+)*" % (LETTERS, LETTERS, LETTERS))
NAME = r"[A-Za-z_][%s-]*" % LETTERS
MARKS = r"(?:(?:abbrev|unfoldable|pub|opaque)\s+)*(?:(?:record|data)\s+)?"
DECLARED = re.compile(r"^\s*%s(%s)(?=\s*:(?:\s|$)|\s+\()" % (MARKS, NAME), re.M)
TYPES = re.compile(r"^\s*(?:pub\s+)?(?:record|data)\s+(%s)" % NAME, re.M)
# A field of specs/ that a lemma of another crate shares its name with, and the crate that has the field.
APART = {'read-value': 'restore'}
# What the checker makes is named after the source.
MADE = re.compile(r'^(?:Need|After|Then|Else|returns|loop)-')


def snake(word):
    if not word[0].islower():
        return word
    word = word.replace('-', '_')
    return re.sub(r'(?<=[a-z0-9])(?=[A-Z])', '_', word).lower()


def files(pattern):
    return sorted(glob.glob(pattern, recursive=True))


def bare(text):
    """The text without comments."""
    return re.sub(r'--(?=\s|$|-).*', '', text)


def declared():
    """Names declared in specs/, in lemma files and in the proofs of functions, each in the order met."""
    specs, laws, proofs, types = {}, {}, {}, set()
    for path in files('crates/*/specs/**/*.antt') + files('crates/*/proofs/**/*.antt'):
        with open(path) as file:
            text = bare(file.read())
        own = specs if '/specs/' in path else proofs if path.endswith('/Proof.antt') else laws
        types.update(TYPES.findall(text))
        for name in DECLARED.findall(text):
            own.setdefault(name, path)
    return specs, laws, proofs, types


def imported():
    """Names that come from the toolchain's libraries."""
    found = set()
    crates = '|'.join(os.path.basename(p) for p in files('crates/*'))
    use = re.compile(r'^\s*(?:pub\s+)?(?:ghost\s+)?use\s+([^\s{]+?)\.\{([^}]*)\}', re.M)
    for path in files('crates/*/specs/**/*.antt') + files('crates/*/proofs/**/*.antt') + files('crates/*/src/*.rt'):
        with open(path) as file:
            for module, names in use.findall(file.read()):
                if not re.match(r'Rattle\.(?:%s)\.' % crates, module):
                    found.update(n.strip().split(' as ')[0] for n in names.split(','))
    return found


def together():
    """The words of each file of specs/ and proofs/."""
    for path in files('crates/*/specs/**/*.antt') + files('crates/*/proofs/**/*.antt'):
        with open(path) as file:
            yield set(WORD.findall(bare(file.read())))


def renamed():
    specs, laws, proofs, types = declared()
    for name in APART:
        if name not in specs:
            sys.exit('this repository is respelled already')
        del specs[name]
    library = imported()
    words = list(together())
    taken, names = {}, {}

    def meets(name, other):
        """Whether one file has both names."""
        return any(name in it and other in it for it in words)

    for own in (specs, laws, proofs):
        # a name that keeps its spelling comes first
        for name in sorted(own, key=lambda n: (snake(n) != n)):
            if name in names or name in types or name in library or MADE.match(name):
                continue
            new = snake(name)
            others = taken.get(new, ())
            if own is not specs:
                if new != name and new in library or any(it in specs or meets(name, it) for it in others):
                    new += '_lem'
                    others = taken.get(new, ())
            if any(it in specs and own is specs or meets(name, it) for it in others):
                sys.exit('two names fall together: %s and %s: %s' % (name, others, new))
            taken.setdefault(new, []).append(name)
            names[name] = new
    return {old: new for old, new in names.items() if old != new}


def respell(text, names):
    """The text, a line or a part of one, with its own names in the new spelling. A name behind a point is a field."""
    def new(match):
        word = match.group(0)
        if word not in names:
            return word
        return snake(word) if text[match.start() - 1:match.start()] == '.' else names[word]
    return WORD.sub(new, text)


def main():
    names = renamed()
    if sys.argv[1:] == ['--list']:
        for old, new in sorted(names.items()):
            print(old, new)
        return
    for path in files('crates/*/specs/**/*.antt') + files('crates/*/proofs/**/*.antt') + files('crates/*/src/*.rt'):
        with open(path) as file:
            text = file.read()
        here = dict(names)
        here.update((n, snake(n)) for n, crate in APART.items() if path.startswith('crates/%s/' % crate))
        mark = '--' if path.endswith('.antt') else '//'
        lines = []
        for line in text.split('\n'):
            code, sep, comment = line, '', ''
            found = re.search(r'(?:^|\s)%s(?=\s|$|-)' % mark, line)
            if found:
                code, sep, comment = line[:found.start()], line[found.start():found.end()], line[found.end():]
            parts = re.split(r'("(?:\\.|[^"\\])*")', code) if mark == '//' else [code]
            code = ''.join(p if i % 2 else respell(p, here) for i, p in enumerate(parts))
            comment = re.sub(r'`[^`]*`', lambda m: respell(m.group(0), here), comment)
            lines.append(code + sep + comment)
        done = '\n'.join(lines)
        if done != text:
            with open(path, 'w') as file:
                file.write(done)


if __name__ == '__main__':
    main()
