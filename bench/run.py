#!/usr/bin/env python3
"""run.py [--quick] [--instructions] [--large] [--with-linuxcnc] [--keep] [--program FILE]

How fast rs274 is beside a careful Rust reader of the same rules, as the tables of docs/SPEED.md. What is needed is
built, and the outputs are compared, before anything is measured.

--quick           100,000 lines only
--instructions    instructions a line only: the figure to go by while the machine is busy
--large           also the peak memory on 1 GB of input (takes minutes)
--with-linuxcnc   installs LinuxCNC where it is not, to measure its rs274 too (without it: only where it is installed)
--keep            all of it, put into docs/SPEED.md as what the next run is set beside
--program FILE    measures this build of rs274, not target/bin/rs274: for trials that are not proved yet"""
import argparse
import os
import re
import shutil
import subprocess
import sys
import time
from pathlib import Path

import mixes

TOP = Path(__file__).resolve().parent.parent
WORK = TOP / 'target/bench'
PAGE = TOP / 'docs/SPEED.md'
BEGIN, END = '<!-- measured -->\n', '<!-- end of measured -->\n'
ROUNDS = {100_000: 15, 1_000_000: 5}
CNC_ROUNDS = {100_000: 3, 1_000_000: 1}
COUNTED = 10_000  # lines under callgrind, which is some fifty times slower
LARGE = 1_000_000_000
INSTRUCTIONS = '| Instructions a line |'


# ---------------------------------------------------------------- Programs

def older(made, *sources):
    """Whether one of the sources, or a file within it, is newer than what was made of them."""
    files = [file for source in sources for file in (source.rglob('*') if source.is_dir() else [source])]
    return not made.exists() or any(file.stat().st_mtime > made.stat().st_mtime for file in files if file.is_file())


def build(own):
    """rs274, unless one's own build is measured; the reader, compared with the second program; the worst lines."""
    program, compared_at = TOP / 'target/bin/rs274', WORK / 'compared'
    if not own:
        subprocess.run(['sh', 'tools/build.sh', 'rs274'], check=True, stdout=sys.stderr)
    if older(compared_at, TOP / 'bench/reader.rs', TOP / 'bench/mixes.py', TOP / 'tests/second'):
        subprocess.run(['sh', 'bench/compare.sh'], check=True, stdout=sys.stderr)
        compared_at.touch()
    if not own:
        link = ['sh', 'tests/link.sh', 'embed', 'bench/worst.c', 'target/bench/worst']
        subprocess.run(link, check=True, stdout=sys.stderr)
    return {'rs274': [str(own or program)], 'reader': [str(WORK / 'reader')]}


def linuxcnc(install):
    if install and not shutil.which('rs274'):
        command = ['apt-get', 'install', '-y', '-qq', '--no-install-recommends', 'linuxcnc-uspace']
        quiet = {**os.environ, 'DEBIAN_FRONTEND': 'noninteractive'}
        if subprocess.run(command, env=quiet, stdout=subprocess.DEVNULL, stderr=subprocess.DEVNULL).returncode != 0:
            print('run: LinuxCNC could not be installed', file=sys.stderr)
    return shutil.which('rs274')


# ---------------------------------------------------------------- Inputs

def written(mix, lines):
    file = WORK / f'{mix}-{lines}.ngc'
    with open(file, 'w') as text:
        text.writelines(f'{line}\n' for line in mixes.lines(mix, lines))
    return file


def output(command, file):
    with open(file, 'rb') as program:
        return subprocess.run(command, stdin=program, stdout=subprocess.PIPE, check=True).stdout


def compared(programs, mix, file):
    """A time says nothing unless all three programs write the same, and go to the end."""
    wanted = output(['sh', 'tests/second.sh', 'frames'], file)
    if wanted.splitlines()[-1].startswith(b'FF'):
        sys.exit(f'run: {mix} is refused')
    for name in programs:
        if output(programs[name], file) != wanted:
            sys.exit(f'run: {name} and the second program differ on {mix}')


# ---------------------------------------------------------------- Times

def seconds(command, file):
    """User and system time of one run."""
    with open(file, 'rb') as program:
        child = subprocess.Popen(command, stdin=program, stdout=subprocess.DEVNULL, stderr=subprocess.DEVNULL, cwd=WORK)
        _, status, usage = os.wait4(child.pid, 0)
    if status != 0:
        sys.exit(f'run: {Path(command[0]).name} ended with {status}')
    return usage.ru_utime + usage.ru_stime


def least(commands, file, rounds):
    """Alternating, so that other work on the machine slows all of them alike."""
    times = {name: [] for name in commands}
    for _ in range(rounds):
        for name, command in commands.items():
            times[name].append(seconds(command, file))
    return {name: min(taken) for name, taken in times.items()}


def times(programs, cnc, sizes):
    rows = ['| User and system time | lines | `rs274` | careful Rust | ratio |', '|---|---|---|---|---|']
    if cnc:
        rows = [rows[0] + ' LinuxCNC |', rows[1] + '---|']
    for lines in sizes:
        for mix in mixes.MIXES:
            file = written(mix, lines)
            compared(programs, mix, file)
            took = least(programs, file, ROUNDS[lines])
            ratio = took['rs274'] / took['reader']
            rows.append(f"| {mix} | {lines:,} | {took['rs274']:.3f} s | {took['reader']:.3f} s | {ratio:.1f} |")
            if cnc:
                other = least({'LinuxCNC': [cnc, '-g', str(file)]}, file, CNC_ROUNDS[lines])
                rows[-1] += f" {other['LinuxCNC']:.2f} s |"
    return rows


# ---------------------------------------------------------------- Instructions

def instructions(command, file):
    tool = ['valgrind', '--tool=callgrind', f'--callgrind-out-file={WORK}/callgrind.out']
    quiet = dict(stdout=subprocess.DEVNULL, stderr=subprocess.PIPE, text=True, check=True)
    with open(file, 'rb') as program:
        said = subprocess.run(tool + command, stdin=program, **quiet).stderr
    return int(re.search(r'Collected : (\d+)', said).group(1))


def kept():
    """The figures of docs/SPEED.md, by mix."""
    found = {}
    table = PAGE.read_text().partition(INSTRUCTIONS)[2].partition('\n\n')[0]
    for mix, figure in re.findall(r'^\| (\w+) \| ([\d,]+) \|', table, re.MULTILINE):
        found[mix] = figure
    return found


def counts(programs):
    """What starting costs, on an empty program, is taken off."""
    rows = [f'{INSTRUCTIONS} `rs274` | careful Rust | ratio | `rs274` at the landing before |', '|---|---|---|---|---|']
    before = kept()
    empty = {name: instructions(command, '/dev/null') for name, command in programs.items()}
    for mix in mixes.MIXES:
        file = written(mix, COUNTED)
        compared(programs, mix, file)
        proved, careful = (round((instructions(programs[name], file) - empty[name]) / COUNTED) for name in programs)
        rows.append(f"| {mix} | {proved:,} | {careful:,} | {proved / careful:.1f} | {before.get(mix, 'none')} |")
    return rows


# ---------------------------------------------------------------- Worst line, memory

def worst():
    rows = ['| 256-byte lines that take longest, C library | time | number given |', '|---|---|---|']
    for line in subprocess.run([WORK / 'worst'], check=True, stdout=subprocess.PIPE, text=True).stdout.splitlines():
        nanoseconds, number, kind = line.split('\t')
        rows.append(f'| {kind} | {int(nanoseconds) / 1000:.1f} µs | {number} |')
    return rows


def peak(command):
    """Peak memory in kB while 1 GB goes through. The kernel's figure of the program alone is asked for before its
    input ends: ru_maxrss would also count the process that started it."""
    text = written('cam', 1_000_000).read_bytes()
    child = subprocess.Popen(command, stdin=subprocess.PIPE, stdout=subprocess.DEVNULL)
    given = 0
    while given < LARGE:
        given += child.stdin.write(text)
    child.stdin.flush()
    time.sleep(1)
    status = Path(f'/proc/{child.pid}/status').read_text()
    child.stdin.close()
    if child.wait() != 0:
        sys.exit('run: the large program ended early')
    return int(re.search(r'VmHWM:\s+(\d+) kB', status).group(1))


def memory(programs):
    took = {name: peak(command) / 1000 for name, command in programs.items()}
    return [f"Peak memory on 1 GB of `cam`: `rs274` {took['rs274']:.1f} MB, careful Rust {took['reader']:.1f} MB."]


# ---------------------------------------------------------------- The page

def keep(tables):
    before, _, rest = PAGE.read_text().partition(BEGIN)
    _, _, after = rest.partition(END)
    PAGE.write_text(before + BEGIN + '\n' + tables + '\n' + END + after)


def options():
    parser = argparse.ArgumentParser(usage=__doc__)
    for flag in ('--quick', '--instructions', '--large', '--with-linuxcnc', '--keep'):
        parser.add_argument(flag, action='store_true')
    parser.add_argument('--program', type=lambda file: Path(file).resolve())
    asked = parser.parse_args()
    if asked.keep and (asked.quick or asked.instructions or asked.program):
        parser.error('only a whole run of the proved program is kept')
    asked.large |= asked.keep
    return asked


def main():
    asked = options()
    os.chdir(TOP)
    WORK.mkdir(parents=True, exist_ok=True)
    programs = build(asked.program)
    parts = []
    if not asked.instructions:
        cnc = linuxcnc(asked.with_linuxcnc)
        parts.append(times(programs, cnc, [100_000] if asked.quick else [100_000, 1_000_000]))
    if shutil.which('valgrind'):
        parts.append(counts(programs))
    if not asked.instructions and not asked.program:
        parts.append(worst())
    if asked.large:
        parts.append(memory(programs))
    tables = '\n\n'.join('\n'.join(part) for part in parts) + '\n'
    print(tables)
    if asked.keep:
        keep(tables)


if __name__ == '__main__':
    main()
