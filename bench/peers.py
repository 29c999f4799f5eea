"""A median filter that people use today, waiting to be timed.

    peers.py opencv|scipy|skimage|gmic FOLDER

Prints `key TAB name` for each filter that it has, and an empty line after the last. After each of these lines, and
from the empty line on, it answers lines: `KEY PICTURE` with ns of processor time a pixel, for one pass over
FOLDER/PICTURE.pgm, and `KEY small` with the small picture filtered. Status 3: it is not installed.
"""
import os
import re
import shutil
import subprocess
import sys
import time
from pathlib import Path

import edge

TURN = 20_000_000  # ns

class Function:
    """A filter that is a function of Python, on pictures of 8 bits or, wide, of 16."""

    def __init__(self, name, function, wide=False):
        self.name, self.function, self.wide = name, function, wide
        self.pictures = {}

    def picture(self, path):
        """Read once. 16 bits: eighths, the range of the library's third pass, but for the small one."""
        import numpy
        if path not in self.pictures:
            levels, width, height = edge.read_picture(path)
            kind = numpy.uint16 if self.wide else numpy.uint8
            scale = 8 if self.wide and path.stem != 'small' else 1
            self.pictures[path] = numpy.frombuffer(levels, numpy.uint8).reshape(height, width).astype(kind) * kind(scale)
        return self.pictures[path]

    def time(self, path):
        """One turn, of 20 ms or one run: the least, as main.c has it."""
        picture = self.picture(path)
        times = [time.process_time_ns()]
        while times[-1] - times[0] < TURN:
            self.function(picture)
            times.append(time.process_time_ns())
        return min(after - before for before, after in zip(times, times[1:])) / picture.size

    def filtered(self, path):
        """The values after one pass."""
        return self.function(self.picture(path)).flatten()


class Gmic:
    """G'MIC is a program: its time is that of many passes less that of few, so that starting it is not in it."""
    FEW, MANY = 2, 52

    def __init__(self, name):
        self.name, self.few = name, {}

    def seconds(self, path, passes):
        """Processor time of the whole program."""
        words = ['gmic', '-v', '-1', str(path), 'repeat', str(passes), '+median[0]', '3', 'rm[-1]', 'done', 'rm']
        child = subprocess.Popen(words, stdin=subprocess.DEVNULL, stdout=subprocess.DEVNULL)
        _, status, used = os.wait4(child.pid, 0)
        if status:
            sys.exit('gmic failed')
        return used.ru_utime + used.ru_stime

    def time(self, path):
        """ns a pixel. Few passes are timed once, the least of seven: were they timed in each turn, the turn in which they
        took too long would be the one that counts."""
        _, width, height = edge.read_picture(path)
        if path not in self.few:
            self.few[path] = min(self.seconds(path, self.FEW) for _ in range(7))
        more = self.seconds(path, self.MANY) - self.few[path]
        return more * 1e9 / (self.MANY - self.FEW) / (width * height)

    def filtered(self, path):
        """The values after one pass."""
        made = path.with_suffix('.csv')
        subprocess.run(['gmic', '-v', '-1', str(path), 'median', '3', 'output', str(made)], check=True, stdout=subprocess.DEVNULL)
        return made.read_text().replace(',', ' ').split()


def opencv():
    """OpenCV, on 8 and on 16 bits."""
    import cv2
    cv2.setNumThreads(1)
    name = f'OpenCV {cv2.__version__} medianBlur'
    return {'opencv': Function(f'{name}, 8 bits', lambda picture: cv2.medianBlur(picture, 3)),
            'opencv16': Function(f'{name}, 16 bits', lambda picture: cv2.medianBlur(picture, 3), wide=True)}


def scipy():
    """SciPy."""
    import scipy
    from scipy import ndimage
    name = f'SciPy {scipy.__version__} ndimage.median_filter'
    return {'scipy': Function(name, lambda picture: ndimage.median_filter(picture, size=3))}


def skimage():
    """scikit-image: its median, which is SciPy's, and its median by histograms."""
    import numpy
    import skimage
    from skimage import filters
    square, name = numpy.ones((3, 3), numpy.uint8), f'scikit-image {skimage.__version__} filters'
    return {'skimage': Function(f'{name}.median', lambda picture: filters.median(picture, square)),
            'rank': Function(f'{name}.rank.median', lambda picture: filters.rank.median(picture, square))}


def gmic():
    """G'MIC, if the program is there."""
    if not shutil.which('gmic'):
        raise ImportError
    said = subprocess.run(['gmic', 'version'], capture_output=True, text=True)
    version = re.search(r'Version ([0-9.]+[0-9])', said.stdout + said.stderr)
    return {'gmic': Gmic(f"G'MIC {version.group(1) if version else ''} median, floats")}


def answer(filters, folder, line):
    """The answer to a line."""
    key, given = line.split()
    path = folder / f'{given}.pgm'
    return ' '.join(map(str, filters[key].filtered(path))) if given == 'small' else f'{filters[key].time(path):.4f}'


def main(word, folder):
    """Says what there is, and answers."""
    try:
        filters = {'opencv': opencv, 'scipy': scipy, 'skimage': skimage, 'gmic': gmic}[word]()
    except ImportError:
        sys.exit(3)
    for key, peer in filters.items():
        print(key, peer.name, sep='\t', flush=True)
        print(answer(filters, folder, sys.stdin.readline()), flush=True)
    print(flush=True)
    for line in sys.stdin:
        print(answer(filters, folder, line), flush=True)


main(sys.argv[1], Path(sys.argv[2]))
