#!/usr/bin/env python3
"""fuzz.py SECONDS [SEED]: builds the fuzzer and runs its targets for so many seconds in all.

The last line is `N passed, M failed`, over the targets; `0 passed, 0 failed` on a machine without libFuzzer."""

import os
import re
import shutil
import subprocess
import sys
import time
from pathlib import Path

HERE = Path(__file__).resolve().parent
TOP = HERE.parent.parent
OUT = TOP / 'target' / 'fuzz'

# The targets, and their shares of the time.
SHARES = {'transactions': 3, 'foreign': 3, 'clears': 2, 'controller': 2, 'snapshots': 1, 'lists': 1}

LONGEST_INPUT = 512
SECONDS_FOR_AN_INPUT = 20

PACKAGES = ['clang', 'libclang-rt-14-dev']
SECONDS_TO_INSTALL = 180

COUNTERS = re.compile(r'\((\d+) inline 8-bit counters\)')
COVERED = re.compile(r'cov: (\d+) ft: (\d+)')
JUDGED = re.compile(r'^panicked at .*?(?=^==\d+==)', re.S | re.M)
WRITTEN = re.compile(r'Test unit written to (\S+)')
INPUTS = re.compile(r'stat::number_of_executed_units: (\d+)')


def has_libfuzzer():
    entry = 'int LLVMFuzzerTestOneInput(const unsigned char *data, unsigned long size) { return data && size && 0; }'
    command = ['clang', '-fsanitize=fuzzer', '-x', 'c', '-', '-o', str(OUT / 'probe')]
    try:
        return subprocess.run(command, input=entry, text=True, capture_output=True).returncode == 0
    except OSError:
        return False


def install_libfuzzer():
    if os.geteuid() != 0 or not shutil.which('apt-get'):
        return
    for words in (['update'], ['install', '-y', *PACKAGES]):
        try:
            subprocess.run(['apt-get', *words], stdin=subprocess.DEVNULL, capture_output=True, timeout=SECONDS_TO_INSTALL,
                           env={**os.environ, 'DEBIAN_FRONTEND': 'noninteractive'})
        except (OSError, subprocess.TimeoutExpired):
            pass


def build():
    built = subprocess.run(['make', '--no-print-directory', '-s', '-C', str(HERE), 'build'], capture_output=True, text=True)
    if built.returncode != 0:
        print(built.stdout + built.stderr)
    return built.returncode == 0


def plant_seeds():
    """Writes the inputs of seeds.txt into the targets' corpora, which grow from them."""
    for line in (HERE / 'seeds.txt').read_text().splitlines():
        if line and not line.startswith('#'):
            target, name, digits = line.split(maxsplit=2)
            corpus = OUT / 'corpus' / target
            corpus.mkdir(parents=True, exist_ok=True)
            (corpus / name).write_bytes(bytes.fromhex(digits))


def last(pattern, text, default):
    found = pattern.findall(text)
    return found[-1] if found else default


def said(text):
    """What the judge said of an input, or the end of what libFuzzer said."""
    judged = JUDGED.search(text)
    lines = judged[0].splitlines() if judged else text.splitlines()[-20:]
    return '\n'.join(line[:1000] for line in lines)


def run(target, seconds, seed):
    """Runs a target, prints what came of it, and returns whether no difference was found."""
    crashes = OUT / 'crashes'
    crashes.mkdir(parents=True, exist_ok=True)
    command = [OUT / 'fuzz', f'-max_total_time={seconds}', f'-seed={seed}', f'-max_len={LONGEST_INPUT}', '-print_final_stats=1',
               f'-timeout={SECONDS_FOR_AN_INPUT}', f'-artifact_prefix={crashes}/{target}-', OUT / 'corpus' / target]
    ran = subprocess.run(command, env={**os.environ, 'FUZZ_TARGET': target}, stdin=subprocess.DEVNULL, stdout=subprocess.PIPE,
                         stderr=subprocess.STDOUT, encoding='utf-8', errors='replace')
    (OUT / f'{target}.log').write_text(ran.stdout)
    inputs = int(last(INPUTS, ran.stdout, 0))
    covered, features = last(COVERED, ran.stdout, (0, 0))
    counters = last(COUNTERS, ran.stdout, 0)
    print(f'{target}: {inputs} inputs, cov {covered} of {counters} counters, ft {features}, seed {seed}', flush=True)
    if ran.returncode == 0 and inputs > 0:
        return True
    print(said(ran.stdout))
    print(f'{target}: FAILED, status {ran.returncode}; again: FUZZ_TARGET={target} target/fuzz/fuzz {last(WRITTEN, ran.stdout, "")}',
          flush=True)
    return False


def main(seconds, seed):
    OUT.mkdir(parents=True, exist_ok=True)
    if not has_libfuzzer():
        install_libfuzzer()
    if not has_libfuzzer():
        print('fuzz: there is no libFuzzer on this machine (clang -fsanitize=fuzzer), nothing was run')
        print('0 passed, 0 failed')
        return 0
    if not build():
        print('fuzz: the fuzzer was not built')
        print('0 passed, 1 failed')
        return 1
    plant_seeds()
    whole = sum(SHARES.values())
    ended_well = [run(target, max(1, seconds * share // whole), seed) for target, share in SHARES.items()]
    passed = sum(ended_well)
    print(f'{passed} passed, {len(ended_well) - passed} failed')
    return 0 if all(ended_well) else 1


if __name__ == '__main__':
    seconds, *seed = sys.argv[1:]
    sys.exit(main(int(seconds), int(seed[0]) if seed else int(time.time())))
