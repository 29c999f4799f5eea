"""How the tests of the pages read a page, and how they say what is wrong with it."""
import re
from pathlib import Path

TOP = Path(__file__).resolve().parent.parent


def page(name):
    return (TOP / 'docs' / name).read_text(encoding='utf-8')


def fenced(text, kind):
    """The blocks of a kind, without their fences."""
    return [block for found, block in re.findall(r'^```(\w*)\n(.*?)^```$', text, re.M | re.S) if found == kind]


def drawn(text, head):
    """The numbers of the picture that stands, indented, under a heading line."""
    return [int(word) for word in re.search(rf'^{re.escape(head)}:\n\n((?: {{4}}.*\n)+)', text, re.M).group(1).split()]


def rows(text, head):
    """The rows of the table whose first line is `head`, as the page has them."""
    return re.search(rf'^{re.escape(head)}\n\|[-|]+\|\n((?:\|.*\n)+)', text, re.M).group(1).splitlines()


def row(*cells):
    return f'| {" | ".join(map(str, cells))} |'


def apart(right, found):
    """Where two lists of lines are not the same."""
    return [f'{b!r} and not {a!r}' for a, b in zip(right, found) if a != b] + [
        f'{len(found)} in place of {len(right)}'] * (len(found) != len(right))


def unsaid(text, *sentences):
    """The sentences that a page does not have, however its lines are broken."""
    flat = ' '.join(text.split())
    return [f'not said: {sentence}' for sentence in sentences if sentence not in flat]


def mixed(value):
    """A fraction as a student writes it: 15 7/16."""
    whole, rest = divmod(value, 1)
    return f'{whole} {rest}' if rest else f'{whole}'


def listed(levels):
    """'10, 7, 6 and 8'"""
    return f'{", ".join(map(str, levels[:-1]))} and {levels[-1]}'
