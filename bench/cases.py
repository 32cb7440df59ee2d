#!/usr/bin/env python3
"""cases.py PROGRAM BEFORE: what the program cases takes on its data files (crates/cases/data), by this program (crates/cases/out/cases, which
`rt run` leaves there) and by one of before the design pass (docs/DESIGN-PASS.md; commit 82f584a): instructions by callgrind, and
the processor time, on each file alone and on all that both read, whose instructions are the sum. Both must print the same of each file. For
callgrind arrays are cleared by vectors, as in count.sh."""
import os, resource, shutil, statistics, subprocess, sys, tempfile
PROGRAM, BEFORE = (os.path.abspath(p) for p in sys.argv[1:3])
BY_VECTORS = dict(os.environ, GLIBC_TUNABLES='glibc.cpu.x86_rep_stosb_threshold=1000000000')
DATA = os.path.join(os.path.dirname(os.path.abspath(__file__)), '..', 'crates', 'cases', 'data')

def run(command, folder, name, environment=None):
    """Runs it in the folder; what it prints of that file."""
    out = subprocess.run(command, cwd=folder, env=environment, check=True, capture_output=True, text=True).stdout
    return [line for line in out.splitlines() if line.startswith(name + ' ')]

def instructions(program, folder, name):
    """Those of the program on the folder, and what it prints of that file."""
    with tempfile.TemporaryDirectory() as room:
        profile = os.path.join(room, 'profile')
        lines = run(['valgrind', '--tool=callgrind', '--callgrind-out-file=' + profile, program], folder, name, BY_VECTORS)
        with open(profile) as file:
            return next(int(line.split()[1]) for line in file if line.startswith('totals: ')), lines

def seconds(program, folder, runs):
    """The processor time of so many runs."""
    start = resource.getrusage(resource.RUSAGE_CHILDREN)
    for _ in range(runs):
        run([program], folder, '')
    end = resource.getrusage(resource.RUSAGE_CHILDREN)
    return end.ru_utime + end.ru_stime - start.ru_utime - start.ru_stime

def times(folder):
    """The processor time of one run before and now: the medians of five jobs each, in turns, of about a second before."""
    runs = int(1 / seconds(BEFORE, folder, 1)) + 1
    turns = [(seconds(BEFORE, folder, runs), seconds(PROGRAM, folder, runs)) for _ in range(5)]
    return (statistics.median(side) / runs for side in zip(*turns))

def row(name, folder, was, now):
    """The row of a folder, by its instructions."""
    before, after = times(folder)
    print(f'| {name} | {was:,} | {now:,} | {now / was:.2f} | {1000 * before:.1f} | {1000 * after:.1f} | {after / before:.2f} |', flush=True)

def main():
    print('| file | instructions, before | now | ratio | ms, before | now | ratio |\n|---|---|---|---|---|---|---|')
    with tempfile.TemporaryDirectory() as whole:
        total = [0, 0]
        for name in sorted(os.listdir(DATA)):
            with tempfile.TemporaryDirectory() as folder:
                shutil.copy(os.path.join(DATA, name), folder)
                (was, before), (now, after) = (instructions(p, folder, name) for p in (BEFORE, PROGRAM))
                if not before:
                    continue  # a file that the program of before does not read
                if before != after:
                    sys.exit(f'cases.py: {name}: {before} before, {after} now')
                row(name, folder, was, now)
            shutil.copy(os.path.join(DATA, name), whole)
            total = [total[0] + was, total[1] + now]
        row('all', whole, *total)

main()
