"""The Rattle kit: where it stands, and how its checker is called over a crate of this repository."""

import os
import shutil
import subprocess
from pathlib import Path

import sources


def home():
    """The kit's folder."""
    guide = subprocess.run(['rt', 'doc'], check=True, stdout=subprocess.PIPE, encoding='utf-8').stdout.strip()
    return Path(guide).resolve().parent


def dependencies(root, crate):
    for line in sources.read(root / 'crates.txt').splitlines():
        name, colon, names = line.split('#')[0].partition(':')
        if colon and name.split()[:1] == [crate]:
            return names.split()
    return []


def is_own(root, crate):
    return (root / 'crates' / crate).is_dir()


def own_below(root, crate):
    """The libraries of the repository that a crate reaches, each after those that it leans on itself."""
    found = []
    for name in dependencies(root, crate):
        if is_own(root, name):
            found += [each for each in [*own_below(root, name), name] if each not in found]
    return found


def root_file(folder):
    main = folder / 'src/main.rt'
    return main if main.is_file() else folder / 'src/lib.rt'


def rlib_of(root, crate):
    """A library of the repository as `rt` built it when it was proved."""
    return root / 'crates' / crate / f'out/rlib/{crate}.rlib'


def logic():
    """The words for the kit's libraries and its logic, as it was checked."""
    kit = home()
    return ['-L', f'dependency={kit}/rlibs', '--antt-project', kit / 'rattle/logic/antt-project.json', '--logic-built', kit / 'logic_built']


def kit_words(names):
    """The words for libraries of the kit."""
    rlibs = home() / 'rlibs'
    return [word for name in ['std', *names] for word in ('--extern', f'{name}={rlibs}/{name}.rlib')]


def crate_words(root, crate):
    """The words by which a crate is handed to `rattle` over the libraries that were built, as `rt` hands it over."""
    direct = dependencies(root, crate)
    words = ['--crate-name', crate, root_file(root / 'crates' / crate), *kit_words(name for name in direct if not is_own(root, name))]
    for name in direct:
        if is_own(root, name):
            words += ['--extern', f'{name}={rlib_of(root, name)}']
    for name in own_below(root, crate):
        words += ['-L', f'dependency={rlib_of(root, name).parent}']
    return [*words, *logic()]


def rattle(verb, words, **options):
    return subprocess.run([str(home() / 'bin/rattle'), verb, *map(str, words)], stdin=subprocess.DEVNULL, stdout=subprocess.PIPE,
                          stderr=subprocess.STDOUT, encoding='utf-8', errors='replace', **options)


def link_tree(there, folder):
    """A copy of a folder by hard links: the checker puts a new file where it keeps another module, and leaves the old one as it was."""
    shutil.copytree(there, folder, copy_function=os.link)


# ---- the toolchain with another clang

def link_all_but(entry, there, folder):
    """Links every entry of a folder into another, but for one."""
    folder.mkdir(parents=True)
    for each in there.iterdir():
        if each.name != entry:
            (folder / each.name).symlink_to(each.resolve())


def link_toolchain(folder):
    """Links the kit's toolchain into a folder, with its clang as `kit-clang`: another can stand in front of it."""
    tools = home() / 'toolchain'
    link_all_but('bin', tools, folder)
    link_all_but('clang', tools / 'bin', folder / 'bin')
    (folder / 'bin/kit-clang').symlink_to((tools / 'bin/clang').resolve())
