#!/usr/bin/env python3
"""The library for C.

    library.py                   builds target/library/libsitankulo.a for the machine at hand, checks it and prints its size
    library.py proved            the same, over the libraries that the `rt ci` that just ended has proved
    library.py install PREFIX    installs it, with its header and a pkg-config file, below PREFIX

The library is the crate sitankulo_c over the libraries below it, compiled from what was proved. The kit's toolchain is called through a
folder of links to it, in which clang alone is another: tools/library_clang, which compiles the same proved module for this machine, with
our settings. The module's text is kept beside the library, for `make fuzz`.
"""

import os
import platform
import re
import shutil
import subprocess
import sys
import tempfile
from pathlib import Path

import kit

ROOT = Path(__file__).resolve().parent.parent
NAME = 'sitankulo'
CRATE = 'sitankulo_c'
OUT = ROOT / 'target/library'
LIBRARY = OUT / f'lib{NAME}.a'
HEADER = ROOT / f'include/{NAME}.h'
VERSION = '0.1.0'

# The functions of C that the library may need: a firmware has these two.
MEMORY_FUNCTIONS = {'memcpy', 'memset'}


def fail(words):
    sys.exit(f'library: {words}')


def output(*command):
    return subprocess.run([str(word) for word in command], check=True, stdout=subprocess.PIPE, encoding='utf-8').stdout


# ---- building

def is_from_ci():
    """Whether the libraries below are those that `rt ci` built: it proves them from nothing, and leaves no stamp."""
    rlibs = [kit.rlib_of(ROOT, name) for name in kit.own_below(ROOT, CRATE)]
    return all((rlib / 'format').is_file() and not (rlib.parent / 'stamp').exists() for rlib in rlibs)


def prove():
    """Proves the crate, and the libraries below it, where they have changed since they were last proved."""
    proved = subprocess.run(['rt', 'lib'], cwd=ROOT / 'crates' / CRATE, stdin=subprocess.DEVNULL, stdout=subprocess.PIPE,
                            stderr=subprocess.STDOUT, encoding='utf-8', errors='replace')
    if proved.returncode != 0:
        fail(f'{CRATE} is not proved:\n{proved.stdout}')


def compile_proved(new):
    """Compiles the proved library for this machine, and returns what the checker said."""
    kept = ROOT / 'crates' / CRATE / 'out/incremental'
    with tempfile.TemporaryDirectory() as folder:
        # outside the checkout, where `rt ci` takes no link
        tools = Path(folder) / 'toolchain'
        kit.link_toolchain(tools)
        (tools / 'bin/clang').symlink_to(ROOT / 'tools/library_clang')
        built = kit.rattle('build', [*kit.crate_words(ROOT, CRATE), *(['--incremental', kept] if kept.is_dir() else []), '--toolchain', tools,
                                     '--backend', 'llvm', '--crate-type', 'staticlib', '-o', new])
        (OUT / 'build.log').write_text(built.stdout, encoding='utf-8')
        if built.returncode != 0:
            fail(f'it was not built:\n{built.stdout}')
        shutil.copy(tools / 'bin/module.ll', OUT / f'{NAME}.ll')
    return built.stdout


def check_assumed(said):
    """The proof rests on the contract of no C function: of all that are declared it reaches none."""
    lines = [line for line in said.splitlines() if line.startswith('axioms ')]
    reached = [line for line in lines if ': none reached ' not in line]
    if reached or not lines or not re.search(r'^logic=proved (?!.*\b(?:axioms|foreign)=)', said, re.M):
        fail('it rests on contracts that are assumed:\n' + '\n'.join(reached or said.splitlines()[-1:]))


def symbols(*words):
    """The last word of each line of nm's that has so many words."""
    count, *flags = words
    return {line.split()[-1] for line in output('nm', *flags).splitlines() if len(line.split()) == count}


def check(library):
    """The library needs nothing but C's functions on memory, and has the header's calls and no others."""
    needs = symbols(2, '-u', library) - MEMORY_FUNCTIONS
    if needs:
        fail(f'it has undefined symbols: {", ".join(sorted(needs))}')
    declared = set(re.findall(rf'\b({NAME}_[a-z0-9_]+)\(', HEADER.read_text(encoding='utf-8')))
    differs = declared ^ symbols(3, '-g', '--defined-only', library)
    if differs:
        fail(f'the header and the library differ in {", ".join(sorted(differs))}')


def size(library, sections):
    lines = [line.split() for line in output('size', '-A', library).splitlines()]
    return sum(int(words[1]) for words in lines if len(words) == 3 and words[0].startswith(sections))


def build(after_ci):
    OUT.mkdir(parents=True, exist_ok=True)
    if not (after_ci and is_from_ci()):
        prove()
    new = OUT / 'new.a'
    said = compile_proved(new)
    check_assumed(said)
    check(new)
    new.replace(LIBRARY)
    print(f'{LIBRARY.relative_to(ROOT)} for {platform.machine()}: {size(LIBRARY, (".text",))} bytes of code, '
          f'{size(LIBRARY, (".rodata", ".data"))} bytes of tables; no C function is called')


# ---- installing

def install(prefix):
    if not LIBRARY.is_file():
        fail('there is no library yet: make lib')
    if not prefix.startswith('/'):
        fail('install takes a PREFIX that starts with /')
    into = Path(os.environ.get('DESTDIR', '') + prefix)
    for file, folder in ((LIBRARY, 'lib'), (HEADER, 'include')):
        (into / folder).mkdir(parents=True, exist_ok=True)
        shutil.copy(file, into / folder)
    (into / 'lib/pkgconfig').mkdir(exist_ok=True)
    (into / f'lib/pkgconfig/{NAME}.pc').write_text(f'''\
prefix={prefix}
libdir=${{prefix}}/lib
includedir=${{prefix}}/include

Name: {NAME}
Description: The logic of an I2C master, proved
Version: {VERSION}
Libs: -L${{libdir}} -l{NAME}
Cflags: -I${{includedir}}
''')
    print(f'installed below {into}: lib/lib{NAME}.a, include/{NAME}.h, lib/pkgconfig/{NAME}.pc')


if __name__ == '__main__':
    if sys.argv[1:] in ([], ['proved']):
        build(after_ci=sys.argv[1:] == ['proved'])
    elif len(sys.argv) == 3 and sys.argv[1] == 'install':
        install(sys.argv[2])
    else:
        sys.exit(__doc__)
