"""What .ci/house-test plants: for each rule of the house faults that it must name, and what looks like one and is none."""
from dataclasses import dataclass
from functools import partial

PICTURE, JUDGE, UNITS, ARITHMETIC, GONG = (f'crates/{name}/src/lib.rt' for name in (
    'picture', 'judge', 'units', 'arithmetic', 'gong'))
SHAPES_OF, VERDICTS = 'crates/picture/proofs/Outcomes.antt', 'crates/judge/proofs/Outcomes.antt'
IN_PICTURE = 'crates/picture/src/m.rt'  # no such file is there
PAGE, HEADER, README = 'docs/PROMISES.md', 'include/gong.h', 'README.md'
LOG = 'target/proofs.log'


@dataclass
class Change:
    """In the file at a path `new` takes the place of `old`, which stands there; of the end, if `old` is nothing. A file that is not
    there is made; where `new` is None the file is taken away."""
    path: str
    old: str
    new: str


@dataclass
class Planted:
    """Some changes, and the words that everything which the rule then finds must have: None where it must find nothing."""
    named: str
    changes: tuple
    listed: tuple = ()  # what is listed as undetermined meanwhile


def fault(named, *changes, listed=()):
    return Planted(named, changes, listed)


def fine(*changes, listed=()):
    return Planted(None, changes, listed)


def at_end(path, text):
    return Change(path, '', text)


def gone(path):
    return Change(path, '', None)


# A function that keeps every rule of a head. It stands after each planted one, whose contracts its own must not be taken for.
NEXT = '\n\npub fn next_one(x: u8) -> u8\n    ensures { result ≡ x }\n{\n    x\n}\n'
PROMISE, NAMED_PROMISE = '\n    ensures { result ≡ x }', '\n    ensures same { result ≡ x }'
DEMAND = '\n    requires { P (record { a = x; b = { x } }) }'
NAMED_DEMAND = DEMAND.replace('requires', 'requires small')
# Public functions of every shape: the signature, and what follows its contracts.
SHAPES = [
    ('\npub fn bare(x: u8) -> u8', ' {\n    x\n}'),
    ('\npub fn bare(x: u8) -> u8', '\n{\n    x\n}'),
    ('\npub fn bare(x: u8) -> u8', ' { x }'),
    ('\npub fn bare(\n    x: u8,\n    y: &[u8; 8],\n) -> u8', ' {\n    x\n}'),
    ('\npub fn bare(x: &[u8; 8]) -> [u8; 8]', '\n{\n    [0; 8]\n}'),
    ('\npub fn bare(x: &mut u8)', ' {\n    if *x < 1 { *x = b\'{\'; }\n}'),
    ("\npub fn bare<'a>(x: &'a [u8]) -> &'a [u8]", ' {\n    x\n}'),
    ('\n#[unsafe(no_mangle)]\npub extern "C" fn bare(x: u8) -> u8', '\n{\n    x\n}'),
    ('\n// ensures { all }\npub fn bare(x: u8) -> u8 // ensures { all }', '\n{\n    x // requires { }\n}'),
    ('\n/* { */\npub fn bare(x: u8) -> u8 /* ensures { all } */', ' {\n    x\n}'),
    ('\nextern "C" {\n    pub fn bare(x: &[u8; 8]) -> u8', ';\n}'),
]


def in_picture(text):
    return at_end(PICTURE, text + NEXT)


def instead_of(path, old, *news):
    return [Change(path, old, new) for new in news]


LAST_CALL = '    // How many eighths of a level they are.\n    pub fn amount(self) -> u64'
LAST_PROMISE = '\n        ensures { result ≡ self.0 }\n    {'
HAS_ENSURES = [
    *[fault('picture::bare', in_picture(signature + rest)) for signature, rest in SHAPES],
    *[fault('picture::bare', in_picture(signature + DEMAND + rest)) for signature, rest in SHAPES],
    *[fault('picture::bare', in_picture(signature + NAMED_DEMAND + rest)) for signature, rest in SHAPES],
    *[fine(in_picture(signature + promise + rest)) for signature, rest in SHAPES for promise in (PROMISE, NAMED_PROMISE)],
    fault('units::Picometres::twice', at_end(UNITS, '\nimpl Picometres {\n    pub fn twice(self) -> u64 {\n        0\n    }\n}\n')),
    fault('units::Held::bare', at_end(UNITS, "\nimpl<'a> Held<'a> {\n    pub fn bare(self) -> u64 {\n        0\n    }\n}\n")),
    fault('units::Eighths::amount', Change(UNITS, LAST_CALL + LAST_PROMISE, LAST_CALL + ' {')),
    fault('picture::inner::bare', in_picture('\npub mod inner {\n    pub fn bare() {}\n}\n')),
    fault('picture::given', in_picture('\nmod m;\npub use m::bare as given;\n'), at_end(IN_PICTURE, 'pub fn bare() {}\n')),
    fault('picture::bare', in_picture('\nmod m;\npub use m::{bare};\n'), at_end(IN_PICTURE, 'pub fn bare() {}\n')),
    fault('picture::m::bare', in_picture('\nmod m;\n'), at_end(IN_PICTURE, 'pub fn bare() {}\n')),
    fault('no rule looks', in_picture('\nfn hides() {\n    pub fn bare() {}\n}\n')),
    fine(in_picture('\nfn bare() {}\n\npub(crate) fn bare_too() {}\n')),
]

NO_REQUIRES = [
    *[fault('picture::bare', in_picture(signature + DEMAND + PROMISE + rest)) for signature, rest in SHAPES],
    *[fault('picture::bare', in_picture(signature + PROMISE + DEMAND + rest)) for signature, rest in SHAPES],
    *[fault('picture::bare', in_picture(signature + NAMED_DEMAND + NAMED_PROMISE + rest)) for signature, rest in SHAPES],
    *[fine(in_picture(signature + promise + rest)) for signature, rest in SHAPES for promise in (PROMISE, NAMED_PROMISE)],
    fault('length::halve', Change('crates/length/src/lib.rt', '\nfn halve(', '\npub fn halve(')),
    fault('judge::ratio::ratio', Change('crates/judge/src/ratio.rt', 'pub(crate) fn ratio', 'pub fn ratio')),
]

SIGNED = 'shape(levels: usize, width: usize, height: usize) → Result<(), Refusal>'
PROMISED = [
    fault('picture::next_one is not there', in_picture('')),
    fault('arithmetic::', Change(PAGE, '`arithmetic::bytes::pair`', '`arithmetic::pair`')),
    fault('filter::', Change(PAGE, '### `filter::sizes`', '### `filter::filter`')),
    # named, but nothing is said of it
    *[fault('picture::shape is not there', change) for change in instead_of(
        PAGE, '### `picture::shape`', '### As `picture::shape`', '`picture::shape`', '#### `picture::shape`',
        '### picture::shape')],
    fault('picture::shape: promise', Change(PAGE, '- **Promise**: `Shaped`', '- **Promise**: `Sized`.\n- **Promise**: `Shaped`')),
    # declared otherwise than in the source
    *[fault('picture::shape is declared', change) for change in instead_of(
        PAGE, f'\n    {SIGNED}\n', '', f'\n{SIGNED}\n', f'\n    {SIGNED}16\n', f'\n    {SIGNED.partition(" → ")[0]}\n',
        f'\n    {SIGNED.replace("width", "breadth")}\n', f'\n    {SIGNED.replace("shape", "form")}\n',
        f'\n    {SIGNED.replace(", height: usize", "")}\n')],
    fault('units::Sixteenths::of is declared', Change(PAGE, 'Sixteenths::of`(n: i64)', 'Sixteenths::of`(n: u64)')),
    fault('length::length is declared', Change('crates/length/src/lib.rt', '(factor: Sixteenths,', '(factor: Picometres,')),
    fault('picture::shape is declared', Change(PICTURE, 'height: usize) -> Result<(), Refusal>', 'height: usize) -> Result<u8, Refusal>')),
    # parameters of types are not said, and a parameter's own type may have brackets
    fine(Change(PICTURE, 'pub fn shape(', 'pub fn shape<R: Read<u8>, E>(')),
    *[kind(Change('crates/streams/src/lib.rt', 'answer: io::Result<()>)', f'answer: io::Result<{inner}>)'))
      for kind, inner in ((partial(fault, 'streams::sent is declared'), '(u8)'), (fine, '()'))],
    *[fine(change) for change in instead_of(
        PAGE, 'n: u64, after: u8) → usize', 'n: u64, after: u8) → usize { end }', 'n: u64, after: u8) → usize, of which more is below')],
]

EQUATION = 'result ≡ sixteenths n'
TWO_FIELDS = Change(UNITS, 'Sixteenths(i64);', 'Sixteenths(i64, i64);')
TWO_NAMES = Change(UNITS, 'Sixteenths(i64);', 'Sixteenths {\n    low: i64,\n    high: i64,\n}')
SENTENCE = 'Determined: each promise is an equation for the result.'
OF_SIZES, NOT_SO = '- **Determined**: `one_sizes` (proofs/Outcomes.antt).', '- **Not determined**: nobody knows.'
THE_SAME = '`one_filter`, since it is the same promise'
FILTER_IS = 'FilterIs levels.now width height'
DETERMINED = [
    # a promise that is no equation for the result, where the section says that each is one
    *[fault('units::Sixteenths::of', change) for change in instead_of(
        UNITS, EQUATION, 'Near result n', 'result ≡ result', 'n ≡ n', 'result ≡ sixteenths (result.0)',
        '(result ≡ sixteenths n) ⊎ (result ≡ sixteenths 0)', '(n ≡ 0) → (result ≡ sixteenths n)',
        '(n ≡ 0) → (n ≡ n) × (result ≡ sixteenths n)', 'Unless (n ≡ 0) (result ≡ sixteenths n) (result ≡ sixteenths n)',
        'result ≡ sixteenths n ⊎ n ≡ 0', '((result ≡ sixteenths n) ⊎ (n ≡ 0)) × (n ≡ n)', 'True')],
    *[fine(change) for change in instead_of(
        UNITS, EQUATION, 'result ≡ sixteenths (n + 0)', 'result.0 ≡ n', '(result ≡ sixteenths n) × (n ≡ n)',
        'n ≡ n } ensures { result ≡ sixteenths n')],
    fault('units::Sixteenths::of', Change(UNITS, EQUATION, 'result.0 ≡ n'), TWO_FIELDS),
    fine(Change(UNITS, EQUATION, '(result.0 ≡ n) × (result.1 ≡ n)'), TWO_FIELDS),
    fault('units::Sixteenths::of', Change(UNITS, EQUATION, 'result.low ≡ n'), TWO_NAMES),
    fine(Change(UNITS, EQUATION, '(result.low ≡ n) × (result.high ≡ n)'), TWO_NAMES),
    fault('arithmetic::natural', Change(ARITHMETIC, 'natural(z: i64)', 'natural(z: i64, y: &mut u64)')),
    *[fault('units::', change) for change in instead_of(PAGE, SENTENCE, '', 'Determined: nobody has looked for an equation.')],
    # a theorem that is not there, or not where it must be, or not the call's own
    *[fault('picture::shape', change) for change in instead_of(
        PAGE, '`one_shape` (proofs/Outcomes.antt)', '`one_shape`', '`one_shape` (proofs/Lib.antt)',
        '`one_shape` (proofs/None.antt)', '`one_form` (proofs/Outcomes.antt)', 'by the same promise',
        '`pixels` (proofs/Shapes.antt)', '`one_number` (crates/text/proofs/Outcomes.antt)')],
    *[fault('picture::shape', change) for change in instead_of(SHAPES_OF, 'pub one_shape :', 'one_shape :', 'pub one_form :')],
    fault('picture::shape', Change(PAGE, '`one_shape` (proofs/Outcomes.antt)', '`one_shape` (proofs/Moved.antt)'),
          at_end('crates/picture/proofs/Moved.antt', 'pub one_shape : ℕ\n')),
    fault('picture::shape', Change(PAGE, '`one_shape` (proofs/Outcomes.antt)', '`one_form` (proofs/Outcomes.antt)'),
          Change(SHAPES_OF, 'pub one_shape :', 'pub one_form :')),
    fault('filter::sizes', Change(PAGE, '`one_sizes` (proofs/Outcomes.antt)', '`one_filter` (proofs/Outcomes.antt)')),
    # a promise that is said to be another call's and is not
    *[fault('gong::gong_filter', change) for change in instead_of(
        GONG, FILTER_IS, 'FilterIs levels.now height width', 'SizesAre levels.now width height')],
    fault('gong::gong_filter', Change(GONG, 'Rattle.filter.specs.Filter.', 'Rattle.gong.specs.Own.')),
    fault('gong::gong_filter', Change(GONG, '{outcome, FilterIs}', '{outcome, Sized as FilterIs}')),
    *[fault('gong::gong_filter', change) for change in instead_of(
        PAGE, 'word for word that of `filter::filter`', 'the same', 'that of `filter::sizes`', 'that of `filter::nothing`')],
    *[fault('gong::gong_filter', change) for change in instead_of(
        PAGE, THE_SAME, '`one_count`, since it is the same promise', '`one_filter`, since it is so',
        'since it is the same promise', '`one_filter` (proofs/Outcomes.antt)',
        '`one_filter` (crates/filter/proofs/Outcomes.antt)')],
    # what no contract can determine
    fault('filter::sizes', Change(PAGE, OF_SIZES, NOT_SO)),
    fine(Change(PAGE, OF_SIZES, NOT_SO), listed=('filter::sizes',)),
    fault('filter::sizes', Change(PAGE, OF_SIZES, f'{OF_SIZES}\n{NOT_SO}'), listed=('filter::sizes',)),
    fault('filter::sizes', Change(PAGE, OF_SIZES, '- **Not determined**:'), listed=('filter::sizes',)),
    fault('filter::sizes', listed=('filter::sizes',)),
    fault('filter::nothing', listed=('filter::nothing',)),
]

BOTH = '`side-to-1025`, `more-levels-taken`'
WRONG_PROGRAMS = [
    *[fault('picture', change) for change in instead_of(
        PAGE, BOTH, '', '`side-to-1025`', '`side-to-1025`, `side-to-1025`', '`side-to-1025` (and `more-levels-taken`)',
        '`side-to-1025`, `side-to-1026`', '`side-to-1025`, `zero-padding`')],
    fine(Change(PAGE, BOTH, '`more-levels-taken` (as `zero-padding`, (or `nothing`)); `side-to-1025`')),
    # a call more, where the crate has edits enough for three
    fault('judge::next_one names 0', at_end(JUDGE, NEXT)),
    fault('units', Change(PAGE, '`eighths-of-nothing`, `eighths-of-half`', '`picometres-of-nothing`, `eighths-of-half`')),
    fault('filter::filter names zero-padding', gone('crates/filter/must-fail/zero-padding.edit')),
    # in another part of the same section, or in another section
    fault('picture', Change(PAGE, f'- **Wrong programs**: {BOTH}.', f'- **Worked**: {BOTH}.')),
    fault('picture', Change(PAGE, f'- **Wrong programs**: {BOTH}.', f'### Others\n\n- **Wrong programs**: {BOTH}.')),
    fine(Change(PAGE, BOTH, '`side-to-1025`,\n  `more-levels-taken`')),
    # at the C door one is enough, and none is needed where the promise is another call's
    fault('gong::gong_judge names 0', Change(PAGE, '- **Wrong programs**: `ratio-not-written`.\n', ''),
          gone('crates/gong/must-fail/ratio-not-written.edit')),
    fine(Change(PAGE, '- **Wrong programs**: `buffers-exchanged`.\n', ''), gone('crates/gong/must-fail/buffers-exchanged.edit')),
    fault('filter/new-one', at_end('crates/filter/must-fail/new-one.edit', 'file: src/lib.rt\n')),
    fault('calls/new-one', at_end('crates/calls/must-fail/new-one.edit', 'file: src/main.rt\n')),
    fault('calls/longer-than-the-space', Change(PAGE, '`longer-than-the-space`', 'another'),
          at_end(PAGE, '\n## Other programs\n\n`longer-than-the-space`\n')),
]

TOLD = 'rt: must-fail picture/side-to-1025.edit: '  # and then what came of it
REFUSED = f'{TOLD}refused, as it must be'
TELLING_EDITS = [
    *[fault('picture/side-to-1025', change) for change in instead_of(
        LOG, REFUSED, f'{REFUSED} (only because a proof file names what the edit took away)', f'{TOLD}NOT REFUSED', f'{TOLD}NOT TRIED',
        f'{TOLD}BAD EDIT: an \'old:\' text is in src/lib.rt 2 times', '', REFUSED.replace('picture', 'pictures'))],
    fine(Change(LOG, REFUSED, f'{REFUSED} (only by a limit of the prover)')),
    fault('/', gone(LOG)),
    fault('filter/new-one', at_end('crates/filter/must-fail/new-one.edit', 'file: src/lib.rt\n')),
]

BOUNDS = ('GONG_MOST_SIDE', 1024), ('GONG_MOST_PIXELS', 1048576), ('GONG_HISTOGRAM', 256), ('GONG_SAMPLE_LEVEL', 67108864)
ONE_TABLE = [
    fault("'18'", Change(HEADER, '_INPUT = 18', '_INPUT = 19')),
    fault('LONG_INPUT', Change('crates/answers/src/lib.rt', 'LongInput = 18,', '')),
    fault('LONG_INPUT', Change(HEADER, 'GONG_LONG_INPUT =', 'GONG_LARGE_INPUT =')),
    # the texts: one too few, one too many, an empty one, one twice, and one for a number that is not given
    fault('text', Change(HEADER, '"done",', '')),
    fault('text', Change(HEADER, '"done",', '"done", "more",')),
    *[fault('the text of 0 ', change) for change in instead_of(HEADER, '"done"', '""', '" "', '"not given"')],
    fault('the text of 19 ', Change(HEADER, '"not given"', '"kept"')),
    fault('the text of ', Change(HEADER, '"not given"', '"done"')),
    fault('texts', Change(HEADER, 'define GONG_TEXTS', 'define GONG_WORDS')),
    fine(Change(HEADER, '"done"', '"done, and well"')),
    *[fault('GONG_NUMBERS', change) for change in instead_of(
        HEADER, 'define GONG_NUMBERS 23', 'define GONG_NUMBERS 22', 'define GONG_COUNT 23', 'define GONG_NUMBERS',
        'define GONG_NUMBERS 23\n#define GONG_NUMBERS 23')],
]

VERSION = 'define GONG_VERSION_TEXT "0.2.0"'
ONE_VERSION = [
    *[fault('the text', change) for change in instead_of(
        HEADER, VERSION, 'define GONG_VERSION_TEXT "0.2.1"', 'define GONG_VERSION_TEXT "0.2"', 'define GONG_VERSION_TEXT 0.2.0',
        'define GONG_VERSION "0.2.0"', f'{VERSION}\n#{VERSION}')],
    *[fault('the text', Change(HEADER, f'define GONG_VERSION_{part} {number}', f'define GONG_VERSION_{part} {number}1'))
      for part, number in (('MAJOR', 0), ('MINOR', 2), ('PATCH', 0))],
    fault('the text', Change(HEADER, 'define GONG_VERSION_MINOR ', 'define GONG_VERSION_MIDDLE ')),
    fine(Change(HEADER, VERSION, f'{VERSION} /* of the numbers above */')),
]

MEMORY = 'crates/memory/src/lib.rt'
ONE_BOUND = [
    *[fault('GONG_SCAN', change) for change in instead_of(
        HEADER, 'define GONG_SCAN 6147', 'define GONG_SCAN 6148', 'define GONG_SCAN 6,147', 'define GONG_HELD 6147')],
    fault('GONG_SCAN', Change(MEMORY, 'pub const LENGTH: usize = ', 'pub const LENGTH: usize = 1')),
    fault('IndexError', Change(MEMORY, 'pub const LENGTH: usize = ', 'pub const LONG: usize = ')),
    fine(Change(MEMORY, 'pub const LENGTH: usize = ', 'pub const LENGTH: usize = 0_')),
    *[fault(name, Change(HEADER, f'define {name} {value}', f'define {name} {value + 1}')) for name, value in BOUNDS],
    *[fault(name, Change(HEADER, f'define {name} {value}', f'define {name}_IS {value}')) for name, value in BOUNDS],
]

DECLARED = [
    fault('gong_length', Change(HEADER, 'uint8_t gong_length(int64_t factor', 'uint8_t gong_length(uint64_t factor')),
    fault('gong_length', Change(GONG, 'gong_length(factor: i64, pixel: u64', 'gong_length(factor: i64, pixel: i64')),
    fault('gong_more', at_end(HEADER, '\nuint8_t gong_more(uint64_t n);\n')),
    fault('gong_more', at_end(GONG, '\n#[unsafe(no_mangle)]\npub extern "C" fn gong_more(n: u64) -> u8 {\n    0\n}\n')),
]

READ_ME = [
    fault('gongspindle', Change(README, '    records 2\n', '    records 3\n')),
    fault('calls', Change(README, '    answered 1\n', '    answered 2\n')),
    fault('NoneType', Change(README, '| crates/calls/out/calls\n', '| calls\n')),
]

CITED = 'use Rattle.filter.specs.Filter.{pass_three}'
CALLS = 'crates/calls/src/asked.rt'
TWOS, BLOCKS = 'crates/scan/proofs/Twos.antt', 'use Rattle.filter.proofs.Blocks.{length_row}'
CONTRACT_ALONE = [
    *[fault(VERDICTS, change) for change in instead_of(
        VERDICTS, CITED, 'use Rattle.filter.proofs as p', 'use Rattle.filter as f', 'use Rattle.filter', 'use Rattle.filter.specs.Filter',
        'use Rattle.filter.specs.Filter as F', 'use Rattle.filter.proofs.{Sorting}', 'use Rattle.filter.proofs.Sorting.{ascending}',
        'use Rattle.filter. proofs.Sorting.{ascending}', 'use Rattle.filter\n    .proofs.Sorting.{ascending}',
        'use Rattle.«filter».specs.Filter.{x}', 'use Rattle. filter.proofs.Sorting.{x}',
        'use Rattle.filter.specs.Filter.{pass_three as e}', 'use Rattle.filter.specs.Filter.{Median.x}',
        'use Rattle.filter.specs.Median.{pass}', 'use package.Rattle.filter.specs.Whiteboard.{x}', 'use Rattle.{filter}',
        'use Rattle as r', 'use «Rattle».filter.specs.Median.{pass}')],
    fine(Change(VERDICTS, CITED, f'{CITED[:-1]},\n    Sized}}\nuse Rattle.filter.proofs.Outcomes.{{Fits, when_fits}}')),
    *[fault(JUDGE, change) for change in instead_of(
        JUDGE, 'use answers::Refusal;', 'use filter as f;', 'use filter;', 'use filter::passes;', 'use filter::sizes as s;',
        'use filter::{sizes};', 'use ::filter as f;', 'extern crate filter as f;', 'use filter::*;',
        'ghost use Rattle.filter.specs.Sorting.{Sized};')],
    *[fault(JUDGE, change) for change in instead_of(
        JUDGE, 'filter::sizes(levels', 'filter::rows::make(levels', 'filter :: rows(levels', 'filter::filter::sizes(levels')],
    fine(Change(JUDGE, 'use answers::Refusal;', '// filter::passes has more\nuse filter::sizes;\nuse filtered::more;')),
    fault(GONG, Change(GONG, 'ghost use Rattle.filter.specs.Filter.', 'ghost use Rattle.filter.specs.Median.')),
    fault(CALLS, Change(CALLS, 'filter::filter(', 'filter::passes(')),
    # a crate that goes by rows may say what a row is, and no more
    *[fault(TWOS, change) for change in instead_of(
        TWOS, BLOCKS, 'use Rattle.filter.proofs.Blocks.{length_row, lower_row}', 'use Rattle.filter.proofs.Blocks.{lower_row}',
        'use Rattle.filter.proofs.Sorting.{ascending}', 'use Rattle.filter.specs.Median.{row_of, near}', 'use Rattle.filter.proofs.Blocks')],
    fine(Change(TWOS, BLOCKS, f'{BLOCKS}\n{CITED}\nuse Rattle.filter.specs.Median.{{pass, row_of}}')),
    fault(VERDICTS, Change(VERDICTS, CITED, BLOCKS)),
    # a crate that is new, above the filter and not above it
    *[fault('crates/more', at_end('crates.txt', f'more{kind}: filter\n'), at_end('crates/more/src/lib.rt', 'use filter as f;\n'))
      for kind in ('', ' staticlib')],
    fine(at_end('crates.txt', 'more: arithmetic\n'), at_end('crates/more/src/lib.rt', 'use filter as f;\n')),
    # what rt keeps
    fine(at_end('crates/judge/out/kept.rt', 'use filter as f;\n')),
]

# Another name of the C door, in some place that the rule looks through.
WORDS = 'the C face', 'A C face', 'by the C Face,'
PLACES = (README, PAGE, HEADER, PICTURE, VERDICTS, 'crates.txt', 'docs/landings/new.md', 'examples/c/filter.c', 'bench/README.md',
          'bench/new/one.py', 'second/rules.py', 'crates/filter/must-fail/zero-padding.edit', 'crates/new/src/main.rt', '.ci/run')
NO_PLACES = ('.ci/planted.py', 'bench/target/x.py', 'second/target/new.py', 'docs/drawings/new.svg', 'crates/filter/notes.txt',
             'crates/filter/out/new.rt')
ONE_NAME = [
    *[fault(README, at_end(README, f'\n{word}\n')) for word in WORDS],
    *[fault(place, at_end(place, f'\n// {WORDS[0]}\n')) for place in PLACES],
    *[fault(PICTURE, at_end(PICTURE, f'\n// the C\n{mark} face\n')) for mark in ('//', '--', '#', ' *', '')],
    # what sounds like it, and what is no page
    *[fine(at_end(README, f'\n{word}\n')) for word in ('a public face', 'a C facet', 'DC faces', 'an interface')],
    *[fine(at_end(place, f'\n{WORDS[0]}\n')) for place in NO_PLACES],
]

OUT = 'nothing.md', '../nothing', '../../x', '/home/me/x', '`/root/x`'
ALL_THERE = [
    *[fault(README, at_end(README, f'\nSee {name}.\n')) for name in OUT],
    *[fault('docs/rules.md', at_end('docs/rules.md', f'\n[there]({name})\n')) for name in ('../crates/nothing', '../../README.md')],
    *[fault(place, at_end(place, f'\n// {OUT[0]}\n')) for place in PLACES],
    *[fine(at_end('docs/rules.md', f'\nSee {name}.\n')) for name in ('../second/rules.py', 'numbers.md', 'target/home/x', 'x/../y')],
    *[fine(at_end(place, f'\n{OUT[0]}\n')) for place in NO_PLACES],
]

LAW = 'crates/picture/proofs/Shapes.antt'
IN_ITS_PLACE = [
    *[fault(LAW, at_end(LAW, f'\n{text}\n')) for text in ('pub one_shape : ℕ', 'one_shape : ℕ', '  pub one_shape : ℕ')],
    fine(at_end(LAW, '\npub one_filter : ℕ\n'), at_end(SHAPES_OF, '\npub one_more : ℕ\n')),
]

PLANTED = {
    'layout': [fault(PICTURE, Change(PICTURE, '    let side = 1..=1_024;', '  let side=1..=1_024;')),
               fault(VERDICTS, Change(VERDICTS, CITED, f'{CITED}   '))],
    'no_requires': NO_REQUIRES,
    'has_ensures': HAS_ENSURES,
    'promised': PROMISED,
    'determined': DETERMINED,
    'in_its_place': IN_ITS_PLACE,
    'wrong_programs': WRONG_PROGRAMS,
    'telling_edits': TELLING_EDITS,
    'one_table': ONE_TABLE,
    'one_version': ONE_VERSION,
    'one_bound': ONE_BOUND,
    'declared': DECLARED,
    'readme': READ_ME,
    'contract_alone': CONTRACT_ALONE,
    'one_name': ONE_NAME,
    'all_there': ALL_THERE,
    'small_rooms': [fault(PICTURE, at_end(PICTURE, '//\n' * 400)), fault(VERDICTS, at_end(VERDICTS, '--\n' * 400)),
                    fine(at_end('crates/picture/out/kept.rt', '//\n' * 401))],
    'short_notes': [fault('landings/filter.md', at_end('docs/landings/filter.md', '\n' * 20)),
                    fault('landings/new.md', at_end('docs/landings/new.md', 'A line.\n' * 26)),
                    fine(at_end('docs/landings/new.md', 'A line.\n' * 25))],
}
