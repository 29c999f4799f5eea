"""Where the pages send a reader, held to the tree: each function is a test with a name, which `.ci/pages` runs. It gives back what is
wrong."""
import re

from reading import TOP, fenced
from tree import Tree

PARTS = 'Calls', 'Defined', 'Proved', 'Tried', 'Second program'  # what every section of rules.md ends with
FIRST = 'Pictures and lent memory'  # the section of the first rule
# The pages that are for people who use it: what they say by document 01 they also say by rules.md.
FOR_USERS = 'README.md', 'docs/PROMISES.md', 'docs/numbers.md', 'docs/for-students.md', 'docs/for-technicians.md', 'second/README.md'


def text_of(path):
    return (TOP / path).read_text(encoding='utf-8')


def sections():
    """The sections of rules.md that have a rule: heading, and {part: what it says, in one line}."""
    for section in re.split(r'^## ', text_of('docs/rules.md'), flags=re.M)[1:]:
        found = re.findall(r'^- (\w[\w ]*): (.*(?:\n  .*)*)', section, re.M)
        yield section.partition('\n')[0], {part: ' '.join(said.split()) for part, said in found}


def reached():
    """rules.md: every public call and every file of definitions is reached from it, and each section says where its rule stands"""
    page = text_of('docs/rules.md')
    files = [path.relative_to(TOP) for path in sorted(TOP.glob('crates/*/specs/*.antt')) if path.name != 'Lib.antt']
    short = [f'{heading} has no part "{part}"' for heading, parts in sections() for part in PARTS if part not in parts]
    return ([f'{name} is not reached' for name in Tree(TOP).public if f'`{name}`' not in page]
            + [f'{path} is not reached' for path in files if f'](../{path})' not in page]
            + short + ['there are no rules'] * (FIRST not in dict(sections())))


def named():
    """rules.md: each theorem is public in the file that stands behind it, and each function of the second program in its file"""
    forms = {'Proved': r'^ *(?:unfoldable )?pub {} :', 'Second program': r'^(?:def|class) {}\b'}
    lost, seen = [], 0
    for heading, parts in sections():
        for part, form in forms.items():
            for names, path in re.findall(r'((?:`[\w-]+`,? ?)+)\(\[[^\]]+\]\(\.\./([^)]+)\)\)', parts.get(part, '')):
                for name in re.findall(r'`([\w-]+)`', names):
                    seen += 1
                    if not re.search(form.format(re.escape(name)), text_of(path), re.M):
                        lost.append(f'{heading}: {path} has no {name}')
    return lost + ['nothing is named'] * (seen == 0)


def slug(heading):
    """A heading as a link writes it."""
    return re.sub(r'[^\w\- ]', '', heading.lower()).strip().replace(' ', '-')


def anchors():
    """every link to a part of a page points to a heading that is there"""
    lost, seen = [], 0
    pages = [path for path in sorted(TOP.rglob('*.md')) if path.relative_to(TOP).parts[0] not in ('target', '.git')]
    for page in pages:
        for path, anchor in re.findall(r'\]\(([^)\s#]*)#([^)\s]+)\)', page.read_text(encoding='utf-8')):
            seen += 1
            to = (page.parent / path).resolve() if path else page
            if anchor not in map(slug, re.findall(r'^#+ (.*)$', to.read_text(encoding='utf-8'), re.M)):
                lost.append(f'{page.relative_to(TOP)}: {path}#{anchor}')
    return lost + ['there are no such links'] * (seen == 0)


def sent_on():
    """a page for users that speaks of document 01 links rules.md too"""
    said = {path: text_of(path) for path in FOR_USERS}
    return [path for path, text in said.items()
            if re.search(r'document 01', text, re.I) and not re.search(r'\]\((?:\.\./)?(?:docs/)?rules\.md', text)]


MODEL = 'crates/threshold/src/counting.rt', 'pub(crate) fn counts_of', 'crates/threshold/proofs/counting/counts_of'


def model_proof():
    """PROVING.md: the function and the proof files that it explains are those of the crate"""
    page, (source, head, folder) = text_of('docs/PROVING.md'), MODEL
    found = re.search(rf'^{re.escape(head)}\b.*?^}}\n', text_of(source), re.M | re.S)
    proofs = [text_of(f'{folder}/{name}.antt') for name in ('Invariants', 'Answers')]
    return ['its function'] * (fenced(page, 'rust')[:1] != [found.group()]) + ['its proof'] * (fenced(page, 'antt')[:2] != proofs)


def crates():
    """README.md: its table of the crates has those of crates.txt, and what each stands on"""
    listed = Tree(TOP).below
    shown = {name: set(re.findall(r'\w+', below))
             for name, below in re.findall(r'^\| \[(\w+)\]\(crates/\w+\) \|.*\|([^|]*)\|$', text_of('README.md'), re.M)}
    return [f'{name}: {sorted(shown.get(name, []))} and not {sorted(listed.get(name, set()) & listed.keys())}'
            for name in sorted(listed.keys() | shown.keys())
            if shown.get(name) != {below for below in listed.get(name, ()) if below in listed}]


def macros():
    """the C examples use every macro of include/gong.h"""
    header = text_of('include/gong.h')
    own = set(re.findall(r'^#define (GONG_\w+) ', header, re.M))
    inside = {name for name in own for line in re.findall(r'^#define GONG_\w+ .*', header, re.M) if re.search(rf' .*\b{name}\b', line[8:])}
    used = set(re.findall(r'\bGONG_\w+', ' '.join(text_of(path) for path in sorted((TOP / 'examples/c').glob('*.c')))))
    return [f'{name} is not used' for name in sorted(own - inside - used)] + ['there are no macros'] * (not own)


TESTS = reached, named, anchors, sent_on, model_proof, crates, macros
