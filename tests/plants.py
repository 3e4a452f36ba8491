"""For the tests of a test over the source: what is planted in a copy of the tree must be reported, and nothing else."""
import os
import shutil
import subprocess
import sys
import tempfile

from sources import read

TOP = os.path.join(os.path.dirname(os.path.abspath(__file__)), '..')


def write(path, text):
    with open(path, 'w', encoding='utf-8') as f:
        f.write(text)


def try_plant(test, path, old, new, expected):
    """plants, runs, takes the plant away; whether the right thing was said"""
    before = read(path)
    if old not in before:
        return False
    write(path, before.replace(old, new, 1))
    ran = subprocess.run([sys.executable, test], capture_output=True, encoding='utf-8')
    write(path, before)
    if expected is None:
        return ran.returncode == 0
    return ran.returncode == 1 and expected in ran.stdout


def main(test, plants):
    """the plants: (what is planted, the file, what is replaced, by what, what must be said; None: nothing)"""
    name = os.path.basename(test) + '_test'
    with tempfile.TemporaryDirectory() as copy:
        for part in ('crates', 'embed', 'tests'):
            shutil.copytree(os.path.join(TOP, part), os.path.join(copy, part), ignore=shutil.ignore_patterns('out'))
        shutil.copy(os.path.join(TOP, 'crates.txt'), copy)
        os.chdir(copy)
        failed = [title for title, *plant in plants if not try_plant(test, *plant)]
        os.chdir(TOP)
    for title in failed:
        print('%s: wrong on: %s' % (name, title))
    print('%s: %d tests, %d failed' % (name, len(plants), len(failed)))
    sys.exit(1 if failed else 0)
