#!/usr/bin/env python3
"""Runs the kit's `rattle` over the libraries that stand built in crates/*/out, as `rt` runs it: after `rt ci` those are the ones that it proved, which `rt`'s other
commands don't take and would prove once more.

.ci/over.py lib, in a crate's folder    builds the static library out/libNAME.a, as `rt lib` does there
`.ci/own-refusals` uses the rest.
"""
import os
import re
import subprocess
import sys

TOP = os.path.realpath(os.path.join(os.path.dirname(os.path.abspath(__file__)), '..'))


def kit():
    """The kit's folder, which `rt doc` names."""
    return os.path.dirname(subprocess.run(['rt', 'doc'], capture_output=True, text=True, check=True).stdout.strip())


def crates():
    """Of each crate in crates.txt what it stands on directly, and which are static libraries."""
    needs, static = {}, set()
    for line in open(f'{TOP}/crates.txt', encoding='utf-8'):
        line = line.partition('#')[0].strip()
        if line:
            head, _, rest = line.partition(':')
            name, *kind = head.split()
            needs[name] = rest.split()
            if 'staticlib' in kind:
                static.add(name)
    return needs, static


class Built:
    """The repository's libraries as they stand built."""

    def __init__(self, names):
        self.kit, (self.needs, self.static) = kit(), crates()
        # A library with a stamp is one that `rt check` or `rt lib` built here, maybe of an older text: `rt lib` brings it and those below it up to date, or
        # does nothing.
        marked = {it for name in names for it in self.below(name) if os.path.isfile(f'{TOP}/crates/{it}/out/rlib/stamp')}
        for name in sorted(marked - {it for name in marked for it in self.below(name)}):
            subprocess.run(['rt', 'lib'], cwd=f'{TOP}/crates/{name}', stdout=subprocess.DEVNULL, check=True)

    def rlib(self, name):
        return f'{TOP}/crates/{name}/out/rlib/{name}.rlib'

    def below(self, name):
        found = []
        for dep in self.needs[name]:
            if dep in self.needs:
                found += [it for it in [*self.below(dep), dep] if it not in found]
        return found

    def words(self, name, jobs):
        """What `rt` gives `rattle check` for a check of the crate from nothing."""
        below = self.below(name)
        missing = [it for it in below if not os.path.isdir(self.rlib(it))]
        if missing:
            sys.exit(f'{os.path.basename(sys.argv[0])}: {name} stands on {missing[0]}, which is not built: run `rt ci` first')
        is_program = os.path.isfile(f'{TOP}/crates/{name}/src/main.rt')
        found = ['--crate-name', name, 'src/main.rt' if is_program else 'src/lib.rt']
        for it in ['std', *[it for it in self.needs[name] if it not in self.needs]]:
            found += ['--extern', f'{it}={self.kit}/rlibs/{it}.rlib']
        found += ['-L', f'dependency={self.kit}/rlibs']
        for it in self.needs[name]:
            found += ['--extern', f'{it}={self.rlib(it)}'] if it in self.needs else []
        for it in below:
            found += ['-L', f'dependency={os.path.dirname(self.rlib(it))}']
        found += ['--antt-project', f'{self.kit}/rattle/logic/antt-project.json', '--logic-built', f'{self.kit}/logic_built']
        found += ['--jobs', str(jobs), '--links', f'{name}=']
        return found + (['--crate-type', 'staticlib'] if name in self.static else [])

    def run(self, verb, words, folder):
        """What `rattle` says in this folder, and its status."""
        ran = subprocess.run([f'{self.kit}/bin/rattle', verb, *words], cwd=folder, stdin=subprocess.DEVNULL,
                             stdout=subprocess.PIPE, stderr=subprocess.STDOUT, text=True, errors='replace')
        return ran.stdout, ran.returncode


def lib():
    folder = os.getcwd()
    name = os.path.basename(folder)
    if os.path.dirname(folder) != f'{TOP}/crates' or name not in crates()[1]:
        sys.exit('over: go to the folder of a static library')
    built = Built([name])
    os.makedirs('out', exist_ok=True)
    words = [*built.words(name, 2), '--toolchain', f'{built.kit}/toolchain', '--backend', 'llvm', '-o', f'out/lib{name}.a']
    said, status = built.run('build', words, folder)
    last = said.rstrip().split('\n')[-1]
    if status or not last.startswith('logic=proved '):
        print(said, end='')
        sys.exit(status or 1)
    print(last)


if __name__ == '__main__':
    if sys.argv[1:] != ['lib']:
        sys.exit(__doc__)
    lib()
