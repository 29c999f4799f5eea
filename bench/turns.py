"""Rows that take turns: who is asked, in which order, and how the peers are found.

Whatever is timed waits in a program of its own, a worker. It is sent a line, runs, and answers with nanoseconds. So all
rows can take turns, and a machine that slows down for a while hurts all alike.
"""
import os
import subprocess
from dataclasses import dataclass, field
from pathlib import Path

import edge

# What each peer is called: its word for peers.py, and its Debian packages.
PEERS = {'OpenCV': ('opencv', 'python3-opencv'), 'SciPy': ('scipy', 'python3-scipy'),
         'scikit-image': ('skimage', 'python3-skimage'), "G'MIC": ('gmic', 'gmic'),
         'ImageJ': ('imagej', 'imagej default-jdk-headless')}
ABSENT = 3  # the status of peers.py where there is no such package
ONE_THREAD = {'OMP_NUM_THREADS': '1', 'OPENBLAS_NUM_THREADS': '1', 'PYTHONDONTWRITEBYTECODE': '1'}


class Ended(Exception):
    """The worker is gone."""


class Worker:
    """A program that answers each line with a line."""

    def __init__(self, words, folder):
        self.log = open(folder / 'workers.log', 'a', encoding='utf-8')
        # what it would keep at home goes to the bench's own folder
        own = dict.fromkeys(('XDG_CONFIG_HOME', 'XDG_CACHE_HOME', 'MPLCONFIGDIR'), str(folder))
        self.child = subprocess.Popen(words, stdin=subprocess.PIPE, stdout=subprocess.PIPE, stderr=self.log, text=True,
                                      env={**os.environ, **ONE_THREAD, **own})

    def ask(self, line):
        """The answer to a line."""
        try:
            self.child.stdin.write(f'{line}\n')
            self.child.stdin.flush()
        except BrokenPipeError:
            raise Ended from None
        return self.read()

    def end(self):
        """Its input ends, and so does it; if not, it is stopped. Gives back its status."""
        try:
            self.child.communicate(timeout=10)
        except (OSError, subprocess.TimeoutExpired):
            self.child.kill()
        self.log.close()
        return self.child.wait()

    def read(self):
        """The next line that it writes."""
        line = self.child.stdout.readline()
        if not line:
            raise Ended
        return line.rstrip('\n')


@dataclass
class Row:
    """A library on an input of a call, and the times of its turns in ns a unit."""
    call: str
    given: str
    unit: str
    name: str
    worker: Worker
    request: str
    edge: str = ''
    times: list = field(default_factory=list)

    @property
    def least(self):
        """What counts."""
        return min(self.times)


def take_turns(rows, turns):
    """Runs every row once, and again, as many turns as asked. Gives back what fell out on the way."""
    fallen = {}
    for _ in range(turns):
        for row in rows:
            if row.worker in fallen:
                continue
            try:
                row.times.append(float(row.worker.ask(row.request)))
            except (Ended, ValueError):
                fallen[row.worker] = f'{row.name}: it is there but ended in mid-run (target/bench/workers.log)'
    for row in rows:
        if row.worker in fallen:
            row.times.clear()
    return list(fallen.values())


def find_peers(here, folder):
    """The rows of the peers that are installed, and a line for each that is not."""
    rows, missing = [], []
    for name, (word, packages) in PEERS.items():
        found, why = first_that_runs(commands(word, here, folder), folder)
        rows += found
        if not found:
            missing.append(f'{name}: {why} (Debian: {packages})')
    return rows, missing


def commands(word, here, folder):
    """The ways in which a peer may start: by java, or by one python3 or another."""
    if word != 'imagej':
        return [[python, here / 'peers.py', word, folder] for python in pythons()]
    jar = Path(os.environ.get('IJ_JAR', '/usr/share/java/ij.jar'))  # where Debian puts it
    java = ['java', '-XX:-UsePerfData', '-Djava.awt.headless=true', f'-Duser.home={folder}', '-cp', jar]
    return [[*java, here / 'ImageJMedian.java', folder]] if jar.exists() else []


def first_that_runs(commands, folder):
    """The rows of the first command that has the peer, or none, and why."""
    why = 'not installed'
    for words in commands:
        rows, status = peer_rows(words, folder)
        if rows:
            return rows, ''
        if status not in (ABSENT, 126, 127):  # the shell's numbers for what is not there
            why = 'it is there but does not run, see target/bench/workers.log'
    return [], why


def pythons():
    """Every python3 on the PATH: a package is often there for one of them only."""
    for folder in dict.fromkeys(os.environ.get('PATH', '').split(os.pathsep)):
        path = Path(folder) / 'python3'
        if os.access(path, os.X_OK):
            yield path


def peer_rows(words, folder):
    """The rows of a peer, on both pictures; where it does not start, none, and its status."""
    rows = []
    try:
        worker = Worker(words, folder)
    except OSError:
        return [], ABSENT
    try:
        while line := worker.read():
            key, name = line.split('\t')
            rule = edge.rule(folder / 'small.pgm', [float(value) for value in worker.ask(f'{key} small').split()])
            for given in ('random', 'smooth'):
                rows.append(Row('filter', given, 'pixel and pass', name, worker, f'{key} {given}', rule))
    except Ended:
        return [], worker.end()
    return rows, 0
