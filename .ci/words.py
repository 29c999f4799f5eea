"""The rules of the house about the words of its pages and sources, in the form of house_rules.py."""
import re
from functools import cache


def short_notes(tree):
    """no landing note has more than 25 lines"""
    return [str(path.relative_to(tree.top)) for path in sorted(tree.top.glob('docs/landings/*.md'))
            if len(path.read_text(encoding='utf-8').splitlines()) > 25]


# What the rules about words look through: not what the planted faults write, which must have such words.
TEXTS = ('README.md', 'crates.txt', 'docs/**/*.md', 'include/*.h', 'examples/**/*', 'bench/**/*', 'second/**/*', 'crates/**/*.rt',
         'crates/**/*.antt', 'crates/**/must-fail/*.edit', '.ci/*')
SKIPPED = 'target', 'out', '__pycache__'
LINE_BREAK = re.compile(r'[ \t]*\n[ \t]*(?:(?://|--|[#*])[ \t]*)?')


def said(tree, pattern):
    """(path, words) of all that a pattern finds in the pages and sources."""
    paths = {path for name in TEXTS for path in tree.top.glob(name) if path.is_file() and path.name != 'planted.py'}
    for path in sorted(paths):
        if not set(SKIPPED) & set(path.relative_to(tree.top).parts):
            yield from ((path, words) for words in found_in(path, pattern, path.stat().st_mtime_ns))


@cache
def found_in(path, pattern, _changed):
    """What a pattern finds in a file's text, its lines joined without the comment marks before them; in what is no text, nothing. A
    file that has not changed is read once."""
    try:
        text = LINE_BREAK.sub(' ', path.read_text(encoding='utf-8'))
    except UnicodeDecodeError:
        return ()
    return tuple(found.group() for found in pattern.finditer(text))


# A second name of the C door.
ANOTHER_NAME = re.compile(r'\bC face\b', re.I)


def one_name(tree):
    """the C door has one name in the pages and sources"""
    return [f'{path.relative_to(tree.top)}: {words}' for path, words in said(tree, ANOTHER_NAME) if path.name != 'words.py']


# The name of a page, a path up from where it stands, and one into somebody's own folders.
NAMED = re.compile(r'[\w-]+\.md\b|(?<![\w./])(?:\.\./)+[\w./-]*|(?<![\w.)}\]*])/(?:home|root|work|mnt)/')


def all_there(tree):
    """every page that a text of the repository names is in it, and no path that stands there leads out of it"""
    pages = {path.name for path in tree.top.rglob('*.md')}
    return [f'{path.relative_to(tree.top)}: {name}' for path, name in said(tree, NAMED)
            if name not in pages and leads_out(tree, path, name)]


def leads_out(tree, path, name):
    """Whether what a file names is not in the tree, seen from that file."""
    to = (path.parent / name.rstrip('.')).resolve()
    return not (name.startswith('../') and to.is_relative_to(tree.top.resolve()) and to.exists())
