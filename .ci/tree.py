"""What the rules of the house read of a tree: its crates, their public functions, and the contracts of these.

A text is taken apart by its braces: an item ends with the `;` or with the body that is its own, and the
braces of a contract, `ensures { .. }` or `ensures NAME { .. }`, belong to the head that stands before that body.
"""
import re
from dataclasses import dataclass
from functools import cached_property
from pathlib import Path

# A comment, a text or a character: no brace in them opens or closes anything.
QUOTED = re.compile(r'//[^\n]*|/\*.*?\*/|b?"(?:\\.|[^"\\])*"|b?\'(?:\\.|[^\'\\])\'', re.S)
CONTRACT = re.compile(r'\b(requires|ensures)(?:\s+\w+)?\s*$')
PUBLIC = re.compile(r'\bpub (?:\w+ |extern "C" )*fn (\w+)')


def source(path):
    """A file's text without its comments, and with nothing between its quotes, but for `extern "C"`."""
    def kept(found):
        return ' ' if found.group().startswith('/') else '"C"' if found.group() == '"C"' else '""'
    return QUOTED.sub(kept, path.read_text(encoding='utf-8'))


def closing(text, at, marks='{}'):
    """Where the brace, or another mark, closes that opens at a place."""
    depth = 0
    for place in range(at, len(text)):
        depth += {marks[0]: 1, marks[1]: -1}.get(text[place], 0)
        if depth == 0:
            return place
    raise ValueError(f'a brace that nothing closes: {text[at:at + 60]!r}')


def items(text):
    """(head, body) of each item of a text: head is all that stands before the body, the contracts with it; body is
    what the item's own braces hold, and nothing where a `;` ends it."""
    begin = at = depth = 0  # depth: of the round and the square brackets
    while at < len(text):
        mark = text[at]
        depth += {'(': 1, '[': 1, ')': -1, ']': -1}.get(mark, 0)
        if mark == ';' and depth == 0:
            yield ' '.join(text[begin:at].split()), ''
            begin = at + 1
        if mark == '{':
            end = closing(text, at)
            if depth == 0 and not CONTRACT.search(text[begin:at]):
                yield ' '.join(text[begin:at].split()), text[at + 1:end]
                begin = end + 1
            at = end
        at += 1


def outside(text):
    """A text with blanks for all that stands inside of its brackets."""
    shown, depth = '', 0
    for mark in text:
        depth -= mark in ')]}'
        shown += mark if depth == 0 else ' '
        depth += mark in '([{'
    return shown


def parted(text, mark):
    """The parts of a text between the marks that stand outside of its brackets."""
    shown = outside(text)
    ends = [place for place in range(len(shown)) if shown.startswith(mark, place)]
    return [text[begin:end].strip() for begin, end in zip([0] + [end + len(mark) for end in ends], ends + [len(text)])]


def contracts(head):
    """(word, text) of each contract of a head: `requires` or `ensures`, and what its braces hold."""
    at = head.find('{')
    while at >= 0:
        end = closing(head, at)
        word = CONTRACT.search(head[:at])
        if word:
            yield word.group(1), head[at + 1:end].strip()
        at = head.find('{', end)


@dataclass(frozen=True)
class Function:
    """A public function: its name as another crate writes it, its head in one line, and where it stands."""
    name: str
    head: str
    file: Path

    @property
    def crate(self):
        return self.name.split('::')[0]

    def signature(self):
        """Its own name with its parameters, and what it gives back, if it gives anything back; no parameters of types."""
        name, rest = re.search(r'\bfn (\w+)(?:<.*?>(?=\())?(\(.*)', self.head).groups()
        end = closing(rest, 0, '()')
        result = re.match(r' -> (.+?)(?= requires\b| ensures\b|$)', rest[end + 1:])
        return f'{name}({", ".join(parted(rest[1:end].rstrip(", "), ","))})', result and result.group(1)

    def asks(self):
        return [text for word, text in contracts(self.head) if word == 'requires']

    def promises(self):
        return [text for word, text in contracts(self.head) if word == 'ensures']


def functions(file, path, text):
    """The functions of a text that are marked `pub`, those of `impl` blocks and of modules in it too."""
    for head, body in items(text):
        inner = re.search(r'(?:^|\] )impl\b(?:<[^>]*>)? (\w+)|(?:^|\] |pub )mod (\w+)$', head)
        if found := PUBLIC.search(head):
            yield Function(f'{path}::{found.group(1)}', head, file)
        elif inner:
            yield from functions(file, f'{path}::{inner.group(1) or inner.group(2)}', body)
        elif head == 'extern "C"':
            yield from functions(file, path, body)


def passed_on(module, text):
    """What the `pub use` lines of a module pass on: the name that it has where it stands, and the one that it has from here."""
    for path, names in re.findall(r'\bpub use (?:self::)?([\w:]*?)(\w+(?: as \w+)?|\{[^}]*\});', text):
        base = module.split('::')[0] if path.startswith('crate::') else module
        for name in names.strip('{}').split(','):
            old, _, new = name.strip().partition(' as ')
            yield f'{base}::{path.removeprefix("crate::")}{old}', f'{module}::{new or old}'


def brought(text):
    """What the `ghost use` lines of a text bring: each name's whole path."""
    lines = re.findall(r'\bghost use ([^{};]+)\.\{([^}]*)\}', text)
    pairs = [(path, item.split(' as ')) for path, names in lines for item in names.split(',')]
    return {item[-1].strip(): f'{path}.{item[0].strip()}' for path, item in pairs}


class Tree:
    """A tree of the project: the crates in it, and their public functions by their names."""

    def __init__(self, top):
        self.top = Path(top)

    def text(self, path):
        return (self.top / path).read_text(encoding='utf-8')

    @cached_property
    def below(self):
        """What each crate stands on, by crates.txt: of a static library, whose line says so before the colon, too."""
        return {name: set(below.split()) for name, below in re.findall(r'^(\w+)[^:\n]*:(.*)$', self.text('crates.txt'), re.M)}

    def sources(self, crate='*'):
        """The files of Rattle and of antt in a crate, or in all; not what rt keeps of them in out/."""
        found = (path for part in ('src', 'specs', 'proofs') for path in self.top.glob(f'crates/{crate}/{part}/**/*'))
        return sorted(path for path in found if path.suffix in ('.rt', '.antt'))

    @cached_property
    def libraries(self):
        return sorted(path.parent.parent for path in self.top.glob('crates/*/src/lib.rt'))

    @cached_property
    def programs(self):
        return sorted(path.parent.parent for path in self.top.glob('crates/*/src/main.rt'))

    @cached_property
    def public(self):
        """Every function of the libraries that another crate can reach. A `pub fn` in a private module counts too, since
        a `pub use`, or the type that it is a method of, can let it out: what is meant for the crate alone is `pub(crate)`."""
        return {found.name: found for crate in self.libraries for found in self.functions_of(crate)}

    def functions_of(self, crate):
        files = {path: source(path) for path in sorted(crate.glob('src/**/*.rt'))}
        modules = {path: '::'.join([crate.name, *path.relative_to(crate / 'src').with_suffix('').parts]) for path in files}
        modules[crate / 'src' / 'lib.rt'] = crate.name
        new_names = dict(pair for path, text in files.items() for pair in passed_on(modules[path], text))
        for path, text in files.items():
            here = list(functions(path, modules[path], text))
            if len(here) != len(PUBLIC.findall(' '.join(text.split()))):
                raise ValueError(f'{path}: a public function that stands where no rule looks')
            for found in here:
                old = next((old for old in new_names if f'{found.name}::'.startswith(f'{old}::')), '')
                yield Function(new_names.get(old, '') + found.name[len(old):], found.head, path)
