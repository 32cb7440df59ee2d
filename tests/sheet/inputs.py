"""inputs.py PROGRAM: runs the program sheet on files, and on pipes that deliver in pieces, and compares what it prints.
Each input that gives something else has a line: what differs first (lines are counted from 0), what came and what was wanted."""
import itertools
import os
import subprocess
import sys
import tempfile
import threading
import time

sys.dont_write_bytecode = True
sys.path.insert(0, os.path.join(os.path.dirname(os.path.abspath(__file__)), '..', 'cases'))
import write

CASE_1 = write.words(write.CASE_1)
LIMITS = write.words(write.large('512 1024 1024 4096 2048', write.FACTS + write.RULES + write.ENTRIES + write.PAIRS))

CASE_1_SHEET = ['atoms 2', '0 go', '1 go', 'spent 17 of 19']
# every literal is a fact
LIMITS_SHEET = ['atoms 512', *(f'{atom} clash' for atom in range(512)), 'spent 20302 of 23040']

# What it is, the bytes of a file, and the sheet.
FILES = [
    ('no bytes', b'', ['refused 1']),
    ('nine bytes', bytes(9), ['refused 1']),
    ('ten bytes', bytes(10), ['atoms 0', 'spent 0 of 0']),
    ('every size at its limit', LIMITS, LIMITS_SHEET),
    ('every size at its limit, and a byte past it', LIMITS + bytes(1), ['refused 3']),
    ('every size at its limit, and 2 bytes past it', LIMITS + bytes(2), ['refused 3']),
    ('every size at its limit, and 10,000 bytes past it', LIMITS + bytes(10000), ['refused 3']),
]

# Bytes that a pipe holds here. A piece that is longer arrives in several.
PIPE = 4096

# What it is, the bytes, the lengths of the pieces, over and over, and the sheet.
PIPES = [
    ('case 1, a byte at a time', CASE_1, [1], CASE_1_SHEET),
    ('every size at its limit, in pieces', LIMITS, [1, PIPE - 1, 3, PIPE + 1, 2 * PIPE + 500, PIPE, 7, 300], LIMITS_SHEET),
]

PAUSE = 0.01  # seconds, in which the program comes to wait for the next piece
PATIENCE = 5  # seconds for one input


def pieces(content, lengths):
    at = 0
    for length in itertools.cycle(lengths):
        if at >= len(content):
            return
        yield content[at:at + length]
        at += length


def from_file(program, content):
    """The status and what is printed."""
    with tempfile.TemporaryFile() as file:
        file.write(content)
        file.seek(0)
        return finished(subprocess.Popen([program], stdin=file, stdout=subprocess.PIPE), [])


def from_pipe(program, content, lengths):
    # Without a buffer on this side each piece is a write of its own.
    process = subprocess.Popen([program], stdin=subprocess.PIPE, stdout=subprocess.PIPE, bufsize=0, pipesize=PIPE)
    return finished(process, pieces(content, lengths))


def finished(process, delivered):
    timer = threading.Timer(PATIENCE, process.kill)
    timer.start()
    deliver(process.stdin, delivered)
    printed = process.stdout.read()
    status = process.wait()
    timer.cancel()
    return status, printed


def deliver(pipe, delivered):
    """A program that reads no further is not at fault here: what it prints tells whether it read enough."""
    try:
        for i, piece in enumerate(delivered):
            pipe.write(piece)
            if i % 3 == 0:
                time.sleep(PAUSE)
    except BrokenPipeError:
        pass
    if pipe:
        pipe.close()


def difference(status, printed, sheet):
    """What differs first, or None."""
    if status != 0:
        return f'status came {status} wanted 0'
    came, wanted = printed.decode(errors='replace').splitlines(True), [line + '\n' for line in sheet]
    for i, (one, other) in enumerate(itertools.zip_longest(came, wanted)):
        if one != other:
            return f'line {i} came {one!r} wanted {other!r}'
    return None


def main():
    if len(sys.argv) != 2:
        sys.exit(__doc__)
    program = sys.argv[1]
    results = [(name, sheet, from_file(program, content)) for name, content, sheet in FILES]
    results += [(name, sheet, from_pipe(program, content, lengths)) for name, content, lengths, sheet in PIPES]
    same = 0
    for name, sheet, (status, printed) in results:
        what = difference(status, printed, sheet)
        same += what is None
        if what:
            print(f'{name}: {what}')
    print(f'inputs {len(results)} same {same}')
    sys.exit(same != len(results))


if __name__ == '__main__':
    main()
