# What the tools need of the Rattle kit that `rt` gives no command for: to have its `rattle` read a text that is no crate of this repository (a wrong
# program, a crate of a tool's own) over the crates as they are proved here, and to write a static library for another processor. The words are those of
# `rattle build --help`. From a shell: `kit.py libraries CRATE..` has the libraries of these crates stand in out/, and `kit.py check FOLDER NAME USE..`
# checks the crate NAME in a folder over those that it uses.
import os
import re
import shutil
import subprocess
import sys

ROOT = os.path.abspath(os.path.join(os.path.dirname(os.path.abspath(__file__)), '..'))


def folder():
    """The kit's folder: that of the `rt` on the PATH."""
    rt = shutil.which('rt')
    if not rt:
        sys.exit('no rt on the PATH: install the Rattle kit first')
    return os.path.dirname(os.path.dirname(os.path.realpath(rt)))


def crates(text=None):
    """Each crate of crates.txt, in its order, with what its line lists behind the colon."""
    found = {}
    for line in (text or open(f'{ROOT}/crates.txt', encoding='utf-8').read()).split('\n'):
        head, colon, names = line.split('#')[0].partition(':')
        if colon:
            found[head.split()[0]] = names.split()
    return found


def below(names):
    """The repository's crates that these stand on, they themselves with them, each after those that it stands on."""
    listed, found = crates(), []

    def add(name):
        if name in listed and name not in found:
            for it in listed[name]:
                add(it)
            found.append(name)

    for name in names:
        add(name)
    return found


def library(name):
    return f'{ROOT}/crates/{name}/out/rlib/{name}.rlib'


def sources(name):
    for part in ('src', 'specs', 'proofs'):
        for at, _, files in os.walk(f'{ROOT}/crates/{name}/{part}'):
            yield from (f'{at}/{it}' for it in files)


def is_left_by_gate(names):
    """Whether the libraries of these crates are all as `rt ci` leaves them in a clean clone, with no `stamp`, and their sources older."""
    for name in names:
        if not os.path.isdir(library(name)) or os.path.exists(f'{os.path.dirname(library(name))}/stamp'):
            return False
        if any(os.stat(it).st_mtime > os.stat(library(name)).st_mtime for it in sources(name)):
            return False
    return True


def make_libraries(names):
    """Has the libraries of these crates, and of those below them, stand in out/ as their sources are now. What `rt ci` has just left is taken as it is, since
    it was proved there; else `rt lib` proves and builds what changed, over what `rt check` kept."""
    if is_left_by_gate(below(names)):
        return
    for name in names:
        ran = subprocess.run(['rt', 'lib'], cwd=f'{ROOT}/crates/{name}', stdout=subprocess.PIPE, stderr=subprocess.STDOUT, text=True, errors='replace')
        if ran.returncode:
            print('\n'.join(ran.stdout.rstrip().split('\n')[-12:]), file=sys.stderr)
            sys.exit(f'crate {name} is not proved: see rt check in crates/{name}')


def words(name, uses, jobs=2):
    """The words by which `rattle check` and `rattle build` read the crate in the current folder, over those that it uses: of this repository, and of the
    kit."""
    kit, listed, said = folder(), crates(), []
    for it in ['std', *(it for it in uses if it not in listed)]:
        said += ['--extern', f'{it}={kit}/rlibs/{it}.rlib']
    for it in uses:
        said += ['--extern', f'{it}={library(it)}'] if it in listed else []
    for it in below(uses):
        said += ['-L', f'dependency={os.path.dirname(library(it))}']
    return ['--crate-name', name, *said, '-L', f'dependency={kit}/rlibs', '--antt-project', f'{kit}/rattle/logic/antt-project.json',
            '--logic-built', f'{kit}/logic_built', '--jobs', str(jobs), '--links', f'{name}=']


def rattle(verb, name, uses, where, *more, root='src/lib.rt', jobs=2):
    """Runs rattle on a crate in the folder `where`, and returns its status and what it said."""
    ran = subprocess.run([f'{folder()}/bin/rattle', verb, *words(name, uses, jobs), root, *more], cwd=where, stdin=subprocess.DEVNULL, stdout=subprocess.PIPE,
                         stderr=subprocess.STDOUT, text=True, errors='replace')
    return ran.returncode, ran.stdout


if __name__ == '__main__':
    verb, *rest = sys.argv[1:] or ['']
    if verb == 'libraries' and rest:
        make_libraries(rest)
    elif verb == 'check' and len(rest) > 1:
        status, said = rattle('check', rest[1], rest[2:], rest[0])
        print(said, end='')
        sys.exit(status)
    else:
        sys.exit('usage: kit.py libraries CRATE.. | kit.py check FOLDER NAME USE..')
