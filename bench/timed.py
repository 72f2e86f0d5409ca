"""Builds a small program on some of the crates, in a copy of them, and times its runs."""
import glob
import os
import shutil
import subprocess
import sys
import time

HERE = os.path.dirname(os.path.abspath(__file__))
ROOT = os.path.dirname(HERE)


def crate_lines(libraries):
    """The lines of crates.txt for these crates of the repository and all that they stand on."""
    with open(os.path.join(ROOT, 'crates.txt')) as file:
        lines = {line.split(':')[0]: line for line in file.read().splitlines() if ':' in line and not line.startswith('#')}
    needed, left = set(), list(libraries)
    while left:
        name = left.pop()
        if name in lines and name not in needed:
            needed.add(name)
            left += lines[name].split(':')[1].split()
    return [line for name, line in lines.items() if name in needed]


def copy_source(crate, name):
    """Copies a program's source, which stands beside this file, and the invariants of its loops, NAME.FUNCTION.invariants."""
    stem = os.path.join(HERE, name.replace('_', '-'))
    os.makedirs(os.path.join(crate, 'src'))
    shutil.copy(stem + '.rattle', os.path.join(crate, 'src', 'main.rt'))
    for file in glob.glob(stem + '.*.invariants'):
        folder = os.path.join(crate, 'proofs', file.split('.')[-2])
        os.makedirs(folder)
        shutil.copy(file, os.path.join(folder, 'Invariants.antt'))


def build(scratch, name, libraries):
    """The path of the built program, whose source stands beside this file."""
    lines = crate_lines(libraries)
    for line in lines:
        crate = line.split(':')[0]
        shutil.copytree(os.path.join(ROOT, 'crates', crate), os.path.join(scratch, 'crates', crate))
    crate = os.path.join(scratch, 'crates', name)
    copy_source(crate, name)
    shutil.copy(os.path.join(ROOT, 'HANDLES'), scratch)
    with open(os.path.join(scratch, 'crates.txt'), 'w') as file:
        file.write('\n'.join(lines + ['%s: %s' % (name, ' '.join(libraries)), '']))
    built = subprocess.run(['rt', 'run'], cwd=crate, stdin=subprocess.DEVNULL, stdout=subprocess.PIPE, stderr=subprocess.STDOUT)
    program = os.path.join(crate, 'out', name)
    if not os.path.exists(program):
        sys.exit(built.stdout.decode())
    return program


def seconds(words, stdin=None):
    """The least seconds of five runs."""
    least = []
    for _ in range(5):
        with open(stdin or os.devnull, 'rb') as file:
            start = time.perf_counter()
            subprocess.run(words, stdin=file, stdout=subprocess.DEVNULL, check=True)
            least.append(time.perf_counter() - start)
    return min(least)
