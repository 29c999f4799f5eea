#!/usr/bin/env python3
"""How to run a program of the first, ours: crates/NAME/out/NAME, which `rt` builds once it is proved. Called by itself it
becomes that program, `calls` if none is named:

    printf ... | second/first.py [NAME]
"""
import os
import subprocess
import sys
import threading
import time
from pathlib import Path

TOP = Path(__file__).resolve().parent.parent
DOOR = TOP / 'target' / 'c' / 'door'
PATIENCE = 120  # seconds until a run counts as hung


class Difference(Exception):
    """What the two programs do not agree on."""


def command(name):
    """The words that run a program."""
    path = TOP / 'crates' / name / 'out' / name
    if not path.exists():
        raise SystemExit(f'second: there is no {path.relative_to(TOP)}: `rt run` in crates/{name}, or .ci/build, makes it')
    return [str(path)]


def door():
    """The words that run the C door, or None where it is left out by hand."""
    if os.environ.get('GONG_WITHOUT_C'):
        return None
    if not DOOR.exists():
        raise Difference(f'there is no {DOOR.relative_to(TOP)}, the C door: .ci/c-door makes it, with a C compiler '
                         '(GONG_WITHOUT_C=1 leaves it out)')
    return [str(DOOR)]


def feed(child, data, slowly):
    """Writes the input. Its first bytes come slowly, if asked: then a read gives less than it asks for."""
    slow = min(len(data), 400) if slowly else 0
    try:
        for at in range(0, slow, 5):
            child.stdin.write(data[at:min(at + 5, slow)])
            child.stdin.flush()
            time.sleep(0.0005)
        child.stdin.write(data[slow:])
        child.stdin.close()
    except BrokenPipeError:
        pass  # the program ended before the input did


def run(name, words, data, slowly=False):
    """The lines that the program writes."""
    child = subprocess.Popen(words, stdin=subprocess.PIPE, stdout=subprocess.PIPE)
    feeder = threading.Thread(target=feed, args=(child, data, slowly))
    stop = threading.Timer(PATIENCE, child.kill)
    feeder.start()
    stop.start()
    wrote = child.stdout.read()
    status = child.wait()
    stop.cancel()
    feeder.join()
    child.stdout.close()
    if status:
        raise Difference(f'{name} ended with status {status} (killed after {PATIENCE} s, if -9), its last bytes {wrote[-80:]!r}')
    if not wrote.endswith(b'\n'):
        raise Difference(f'the last line that {name} wrote has no end: {wrote[-80:]!r}')
    return wrote.decode('latin-1').split('\n')[:-1]


def differ(right, wrote):
    """The first line that differs: its number from 0, and both texts; None where all are alike."""
    if right == wrote:
        return None
    line = next((k for k, (a, b) in enumerate(zip(right, wrote)) if a != b), min(len(right), len(wrote)))
    return line, *(lines[line][:200] if line < len(lines) else '(nothing)' for lines in (right, wrote))


if __name__ == '__main__':
    words = command(*(sys.argv[1:] or ['calls']))
    os.execv(words[0], words)
