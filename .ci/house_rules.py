"""The rules of the house that a program can look after, each a function: it takes a tree and gives back what breaks it.

Its docstring is the rule; those about words stand in words.py. `.ci/house` runs them all; `.ci/house-test` shows each of them to fail
on planted faults.
"""
import re
import shutil
import subprocess
import tempfile
from pathlib import Path

from promises import Page
from tree import brought, items, outside, parted, source
from words import all_there, one_name, short_notes

# The calls whose result no contract can determine, as docs/PROMISES.md says in a part "Not determined": no others.
UNDETERMINED = ('streams::read',)


def layout(tree):
    """rt fmt has nothing to change: it lays out a copy of the crates"""
    with tempfile.TemporaryDirectory() as copy:
        for part in ('src', 'specs', 'proofs'):
            for folder in tree.top.glob(f'crates/*/{part}'):
                shutil.copytree(folder, Path(copy) / part / folder.parent.name)
        said = subprocess.run(['rt', 'fmt'], cwd=copy, capture_output=True, text=True)
    changed = re.findall(r'^rt: formatted (\w+)/(\w+)/(.*)', said.stdout, re.M)
    return [f'crates/{crate}/{part}/{name}' for part, crate, name in changed] or [said.stdout + said.stderr] * (said.returncode != 0)


def no_requires(tree):
    """no function that another crate can reach asks anything of its caller"""
    return [name for name, function in tree.public.items() if function.asks()]


def has_ensures(tree):
    """every function that another crate can reach promises something"""
    return [name for name, function in tree.public.items() if not function.promises()]


def promises(tree):
    """The page of the promises."""
    return Page(tree.text('docs/PROMISES.md'))


def promised(tree):
    """docs/PROMISES.md has a section, or a row, for each function that another crate can reach, as it is declared, and for no
    other"""
    page = promises(tree)
    return ([f'{name} is not there' for name in tree.public if name not in page.calls]
            + [f'{name} is no such function' for name in page.calls if name not in tree.public]
            + [f'{name} is there twice' for name in page.twice]
            + [f'{name} is declared otherwise' for name, function in tree.public.items()
               if name in page.calls and not is_signature(page.calls[name], function)])


def is_signature(parts, function):
    """Whether a call's signature on the page is that of its source. A row does not say the result; what the parts of a result are
    may follow its type."""
    made, result = function.signature()
    if 'all' in parts or not result:
        return parts['signature'] == made
    return bool(re.match(rf'{re.escape(f"{made} → {result}")}(?:$|,| {{)', parts['signature']))


def determined(tree):
    """docs/PROMISES.md says of each of them why any two outcomes are equal, and that is so: the theorem `one_CALL` is public in
    proofs/Outcomes.antt of its crate, or the promise is that of another call which has one, or it is an equation for the result;
    or the call is listed as undetermined"""
    page = promises(tree)
    said = {name: undetermined(tree, page, function) for name, function in tree.public.items() if name in page.calls}
    return ([f'{name}: {why}' for name, why in said.items() if why]
            + [f'{name} is listed as undetermined, and there is no such function' for name in UNDETERMINED
               if name not in tree.public]
            + [f'{name} is listed as undetermined, and nothing says why' for name in UNDETERMINED
               if not page.calls.get(name, {}).get('not determined')])


OUTCOMES = 'proofs/Outcomes.antt'  # where a crate has the theorems that its calls are determined


def undetermined(tree, page, function):
    """What is wrong with the page's reason for a call, or nothing."""
    parts = page.calls[function.name]
    if 'not determined' in parts:
        return '' if function.name in UNDETERMINED and 'determined' not in parts else 'it says "not determined"'
    if 'determined' in parts:
        theorem, file = cited_theorem(parts)
        if theorem and not file and 'the same promise' in parts['determined']:
            return another_promise(tree, page, function, theorem)
        if theorem != own_theorem(function) or file != OUTCOMES:
            return f'its theorem is not {own_theorem(function)} of {OUTCOMES}'
        return '' if theorem in theorems(tree, f'crates/{function.crate}/{file}') else 'its theorem is not there'
    if not re.match(r'each (?:promise )?is an equation for the result\b', parts.get('all', '')):
        return 'nothing is said'
    return '' if is_equation(function) else 'its promise is no equation for the result'


def own_theorem(function):
    """The name of the theorem that a call is determined: the call's own."""
    return f'one_{function.name.rpartition("::")[2]}'


def in_its_place(tree):
    """the theorem that a call is determined, `one_CALL`, stands in proofs/Outcomes.antt of its crate and nowhere else in it"""
    names = {(function.crate, own_theorem(function)) for function in tree.public.values()}
    laws = [path for path in tree.sources() if path.suffix == '.antt' and path.name != Path(OUTCOMES).name]
    return [f'{path.relative_to(tree.top)}: {name}' for path in laws
            for name in re.findall(r'^ *(?:pub )?(\w+) :', path.read_text(encoding='utf-8'), re.M)
            if (path.relative_to(tree.top).parts[1], name) in names]


def cited_theorem(parts):
    """The theorem that a part "Determined" begins with, and the file that it names."""
    cited = re.match(r'`(one_\w+)`(?: \(([^()]*)\))?', parts.get('determined', ''))
    return cited.groups() if cited else (None, None)


def theorems(tree, path):
    """The public theorems of a proof file."""
    return re.findall(r'^ *pub (\w+) :', tree.text(path), re.M) if (tree.top / path).exists() else []


def another_promise(tree, page, function, theorem):
    """What is wrong where a call is said to have the promise of another, which its part "Promise" names: the two contracts are
    the same word for word, but that one may say `told result` of the number that the other returns, their words mean the same,
    and the theorem is the other call's."""
    named = re.search(r'\bthat of `([\w:]+)`', page.calls[function.name].get('promise', ''))
    other = tree.public.get(named.group(1)) if named else None
    if not other:
        return 'the call whose promise it has is not named'
    if cited_theorem(page.calls.get(other.name, {}))[0] != theorem or undetermined(tree, page, other):
        return f'{theorem} is not the theorem of {other.name}'
    ours, theirs = (brought(source(one.file)) for one in (function, other))
    words = [word for text in function.promises() for word in WORD.findall(text)]
    numbers = [text.replace('(told result)', 'result') for text in other.promises()]
    same = function.promises() == numbers and all(ours.get(word) == theirs.get(word) for word in words)
    return '' if same else f'its promise is not that of {other.name}'


def is_equation(function):
    """Whether a promise settles the result by an equation, `result ≡ ..`, or each field of it by one, `result.field ≡ ..`, and
    nothing is lent that the call could change."""
    if '&mut' in function.head.partition('ensures')[0]:
        return False
    sides = {side for text in function.promises() for side in settled(text)}
    return 'all' in sides or bool(fields(function)) and sides >= set(fields(function))


WORD = re.compile(r'[^\s(){}.;,]+')  # a name of antt, or a sign


def settled(text):
    """What the equations of a promise settle: the fields of the result that they name, or all of it. Where anything else than
    equations, joined by ×, stands outside of its brackets, nothing."""
    for part in parted(text, ' × ') if not OTHER & set(outside(text).split()) else []:
        part = part[1:-1] if re.fullmatch(r'\( *\)', outside(part)) else part
        left, *right = parted(part, ' ≡ ')
        field = re.fullmatch(r'result(?:\.(\w+))?', left)
        if field and len(right) == 1 and not OTHER & set(outside(part).split()) and 'result' not in WORD.findall(right[0]):
            yield field.group(1) or 'all'


OTHER = {'→', '⊎', '↔', '¬', 'λ', 'Σ', '∃', '∀', 'do', 'let', 'if', 'elim'}  # what can join or qualify equations


def fields(function):
    """The fields of the struct that a function gives back, if it stands in the same file."""
    kind = re.search(r'-> (\w+)', function.head)
    kind = kind.group(1) if kind and kind.group(1) != 'Self' else function.name.split('::')[-2]
    for head, body in items(source(function.file)):
        if tuple_of := re.search(rf'\bstruct {kind}\((.*)\)$', head):
            return [str(place) for place in range(tuple_of.group(1).count(',') + 1)]
        if re.search(rf'\bstruct {kind}$', head):
            return re.findall(r'(\w+) ?:', body)
    return []


# The C door hands on what the calls below it promise, of which each has two wrong programs of its own: so one is enough there, and
# none is needed where the promise is that of the call below, word for word.
C_DOOR = 'gong'


def least_edits(crate, parts):
    """How many wrong programs a call of a crate must have."""
    if crate.name != C_DOOR:
        return 2
    return 0 if 'the same promise' in parts.get('determined', '') else 1


def wrong_programs(tree):
    """docs/PROMISES.md names for each public call two wrong programs or more (one at the C door, but for a promise that is another
    call's), its own and no other call's, each is an edit of its crate, and each edit that there is is named: a program's in the
    section "The programs" """
    page, faults = promises(tree), []
    for crate in tree.libraries:
        edits = {path.stem for path in crate.glob('must-fail/*.edit')}
        named = {}
        for name in (name for name, function in tree.public.items() if function.crate == crate.name):
            own = page.wrong_programs(name)
            faults += [f'{name} names {len(set(own))}'] * (len(set(own)) < least_edits(crate, page.calls.get(name, {})))
            faults += [f'{name} names {edit}, which is not there' for edit in own if edit not in edits]
            faults += [f'{name} names {edit}, and so does {named[edit]}' for edit in own if edit in named]
            named |= {edit: name for edit in own}
        faults += [f'{crate.name}/{edit} is named by no call' for edit in sorted(edits - set(named))]
    said = re.findall(r'`([\w-]+)`', page.sections.get('The programs', ''))
    return faults + [f'{crate.name}/{path.stem} is not named' for crate in tree.programs
                     for path in sorted(crate.glob('must-fail/*.edit')) if path.stem not in said]


REFUSED = re.compile(r'^rt: must-fail (\S+)/(\S+)\.edit: refused, as it must be(?! \(only because)', re.M)


def telling_edits(tree):
    """each must-fail edit is refused for a fact, and not because the proof file no longer fits the code: target/proofs.log, which
    .ci/run keeps of `rt ci`, says so of each"""
    log = tree.top / 'target/proofs.log'
    told = REFUSED.findall(log.read_text(encoding='utf-8')) if log.exists() else []
    edits = [(path.parent.parent.name, path.stem) for path in tree.top.glob('crates/*/must-fail/*.edit')]
    return [f'{crate}/{label}' for crate, label in sorted(set(edits) - set(told))]


def one_table(tree):
    """include/gong.h has the numbers of the enum Refusal in crates/answers/src/lib.rt, by the same names, and 0, and a text for each"""
    refusals = re.findall(r'^    (\w+) = (\d+),$', source(tree.top / 'crates/answers/src/lib.rt'), re.M)
    table = [('DONE', '0'), *((re.sub(r'(?<=.)(?=[A-Z])', '_', name).upper(), number) for name, number in refusals)]
    header = re.findall(r'\bGONG_(\w+) = (\d+)', tree.text('include/gong.h'))
    same = refusals and table == header
    return wrong_texts(tree, {int(number) for _, number in table}) if same else [f'{sorted(set(table) ^ set(header))}']


def wrong_texts(tree, numbers):
    """What is wrong with the header's texts: from 0 to the last number each has one that no other has; a number that is not given
    has the text "not given"."""
    texts = re.findall(r'"([^"]*)"', macro(tree, 'GONG_TEXTS') or '')
    wrong = [f'there are {len(texts)} texts'] * (len(texts) != max(numbers) + 1)
    wrong += [f'GONG_NUMBERS is {one}' for one in [macro(tree, 'GONG_NUMBERS')] if one != str(max(numbers) + 1)]
    wrong += [f'the text of {number} is {text!r}' for number, text in enumerate(texts)
              if not text.strip() or (text == NOT_GIVEN) == (number in numbers) or text != NOT_GIVEN and texts.count(text) > 1]
    return wrong


NOT_GIVEN = 'not given'


def macro(tree, name):
    """What the header defines a name as, in one line: None, unless it does so once."""
    lines = re.sub(r'\s*\\\n\s*', ' ', tree.text('include/gong.h'))
    found = re.findall(rf'^#define {name} +(.*?) *(?:/[*/].*)?$', lines, re.M)
    return found[0] if len(found) == 1 else None


def one_version(tree):
    """include/gong.h says its version once: the numbers and the text agree"""
    numbers = [macro(tree, f'GONG_VERSION_{part}') for part in ('MAJOR', 'MINOR', 'PATCH')]
    text = macro(tree, 'GONG_VERSION_TEXT')
    agree = all(number and number.isdigit() for number in numbers) and text == f'"{".".join(map(str, numbers))}"'
    return [] if agree else [f'the numbers {numbers}, the text {text}']


# The bounds that a C caller needs, by the names that the header has for them.
BOUNDS = {'GONG_MOST_SIDE': 1024, 'GONG_MOST_PIXELS': 1048576, 'GONG_HISTOGRAM': 256, 'GONG_SAMPLE_LEVEL': 67108864}


def one_bound(tree):
    """include/gong.h has the bounds that a caller needs, and GONG_SCAN is the LENGTH of crates/memory/src/lib.rt"""
    length = re.findall(r'pub const LENGTH: usize = (\w+);', source(tree.top / 'crates/memory/src/lib.rt'))
    bounds = BOUNDS | {'GONG_SCAN': int(length[0])}
    return [f'{name} is {macro(tree, name)} and not {bound}' for name, bound in bounds.items() if macro(tree, name) != str(bound)]


C_TYPES = {'u8': 'uint8_t', 'u16': 'uint16_t', 'u32': 'uint32_t', 'u64': 'uint64_t', 'i64': 'int64_t', 'usize': 'size_t'}


def c_parameter(name, kind):
    """A parameter of the Rattle source as C has it: a slice is a pointer and then a length."""
    lent, changes, slice_of, element = re.fullmatch(r'(&)?(mut )?(\[)?(\w+)\]?', kind).groups()
    if not lent:
        return f'{C_TYPES[element]} {name}'
    pointer = f'{"" if changes else "const "}{C_TYPES[element]} *{name}'
    return f'{pointer}, size_t {name}_len' if slice_of else pointer


def declaration(head):
    """The C declaration of an exported function, from its text in the Rattle source."""
    name, parameters, result = re.search(r'fn (\w+)\(([^)]*)\) -> (\w+)', head).groups()
    pairs = [part.split(':') for part in parameters.split(',') if part.strip()]
    return f'{C_TYPES[result]} {name}({", ".join(c_parameter(name.strip(), kind.strip()) for name, kind in pairs)});'


def declared(tree):
    """include/gong.h declares the functions of the crate gong with their types, and no others"""
    made = {declaration(function.head) for function in tree.public.values() if function.crate == 'gong'}
    header = re.findall(r'^\w+ gong_\w+\([^)]*\);', tree.text('include/gong.h'), re.M)
    return sorted(made ^ {re.sub(r'\s+', ' ', text) for text in header})


def readme(tree):
    """what README.md shows of the programs is what they print"""
    text = tree.text('README.md')
    sample = re.search(r'^    \(cd crates/gongspindle && rt run\) < (\S+)$', text, re.M).group(1)
    request = re.search(r'^    (printf .*) \| crates/calls/out/calls$', text, re.M).group(1)
    shown = [f'crates/gongspindle/out/gongspindle < {sample}', f'{request} | crates/calls/out/calls']
    said = [subprocess.run(words, shell=True, cwd=tree.top, capture_output=True, text=True).stdout for words in shown]
    return [words for words, lines in zip(shown, said)
            if not lines or ''.join(f'    {line}\n' for line in lines.splitlines()) not in text]


# The path to the filter's crate; also what can hide it, another name for the path's beginning or a list right behind it.
ITS_PATH = re.compile(r'\bRattle\b»?(?:\s*\.\s*(?:«?filter\b|\{)|\s+as\b)')
# The filter's contract, and the laws of that contract: names in braces, each by itself.
ITS_CONTRACT = re.compile(r'\.(?:specs\.Filter|proofs\.Outcomes)\.\{[^{}.]*\}')
# The contract of a row by itself, what a row of a pass and a pass are, and three laws of these: for the crates whose promises
# speak of rows.
BY_ROWS = 'scan', 'beam'
ITS_ROWS = re.compile(ITS_CONTRACT.pattern + r"""|\.(?:specs\.Row|proofs\.RowOutcomes)\.\{[^{}.]*\}
    |\.specs\.Median\.\{(?:row_of|pass_row|pass)(?:,\ (?:row_of|pass_row|pass))*\}
    |\.proofs\.(?:Blocks\.\{length_row\}|Ranges\.\{most_row\}|Drawn\.\{length_pass\})""", re.X)
# The filter's crate in a program: by itself, or on the way to something in it.
ITS_CRATE = re.compile(r'\b(?:use|crate)\s+(?:::\s*)?filter\b(?!\s*::)|\bfilter\s*::\s*(\w*)(\s*::|\s+as\b)?')


def above_the_filter(tree):
    """The crates that stand on the filter. Not `cases`, a table of tests, which cites the tests of the crates below."""
    return [name for name, below in tree.below.items() if 'filter' in below and name != 'cases']


def contract_alone(tree):
    """the crates above the filter cite its contract and the laws of that contract, call its public functions, and name nothing
    else of it, by whatever name; those that go by rows also what a row is"""
    faults = []
    for name in above_the_filter(tree):
        contract_of = ITS_ROWS if name in BY_ROWS else ITS_CONTRACT
        for path in tree.sources(name):
            text = source(path) if path.suffix == '.rt' else path.read_text(encoding='utf-8')
            cited = [(found.start(), contract_of.match(text, found.end())) for found in ITS_PATH.finditer(text)]
            places = [at for at, contract in cited if not contract or re.search(r'\bas\b', contract.group())]
            if path.suffix == '.rt':
                places += [found.start() for found in ITS_CRATE.finditer(text)
                           if found.group(2) or f'filter::{found.group(1)}' not in tree.public]
            faults += [f'{path.relative_to(tree.top)}: {line_at(text, at)}' for at in places]
    return faults


def line_at(text, place):
    return text[text.rfind('\n', 0, place) + 1:].partition('\n')[0].strip()


def small_rooms(tree):
    """no file of Rattle or antt has more than 400 lines"""
    return [str(path.relative_to(tree.top)) for path in tree.sources() if len(path.read_text(encoding='utf-8').splitlines()) > 400]


RULES = (layout, no_requires, has_ensures, promised, determined, in_its_place, wrong_programs, telling_edits, one_table, one_version,
         one_bound, declared, readme, contract_alone, small_rooms, short_notes, one_name, all_there)


def broken(rule, tree):
    """What breaks a rule; a tree that cannot be read as the rule reads it breaks it too."""
    try:
        return rule(tree)
    except Exception as fault:
        return [f'{type(fault).__name__}: {fault}']
