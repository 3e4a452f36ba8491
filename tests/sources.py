"""The sources of the crates that crates.txt names, for the tests that read them."""
import glob
import re
import sys

LIBRARY = 'linkspan'

COMMENT = re.compile(r'//[^\n]*')


def read(path):
    with open(path, encoding='utf-8') as f:
        return f.read()


def line_of(text, at):
    return text.count('\n', 0, at) + 1


def blank(text):
    """as many characters and lines, all of them empty"""
    return re.sub(r'[^\n]', ' ', text)


def crates():
    """{crate: the crates that it names as below it}; what kind a crate is stands behind its name"""
    lines = [line.partition(':') for line in read('crates.txt').split('\n') if line and not line.startswith('#')]
    return {name.split()[0]: below.split() for name, _, below in lines}


def library():
    """the library and all crates under it"""
    named = crates()
    if LIBRARY not in named:
        sys.exit('crates.txt does not have ' + LIBRARY)
    found = [LIBRARY]
    for name in found:
        found += [one for one in named[name] if one in named and one not in found]
    return found


def sources(names):
    """{path: text} of these crates, the comments blank"""
    paths = [path for name in names for path in glob.glob('crates/%s/src/**/*.rt' % name, recursive=True)]
    return {path: COMMENT.sub(lambda found: blank(found.group()), read(path)) for path in sorted(paths)}
