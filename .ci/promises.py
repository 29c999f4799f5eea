"""docs/PROMISES.md as the rules of the house read it: what it says of each call, part by part."""
import re

# A call's section: its heading, the line that is indented by four, and a labelled part, which goes on in lines indented by two.
CALL = re.compile(r'`(\w+(?:::\w+)+)`')
SIGNATURE = re.compile(r'\n\n {4}(\S.*)\n\n')
PART = re.compile(r'^- \*\*([^*\n]+)\*\*:(.*(?:\n  \S.*)*)', re.M)


def cells(line):
    return [cell.strip() for cell in line.strip().strip('|').split('|')]


def flat(text):
    return ' '.join(text.split())


def edits(text):
    """The wrong programs that a part names; what stands in round brackets is a remark."""
    while (less := re.sub(r'\([^()]*\)', '', text)) != text:
        text = less
    return re.findall(r'`([\w-]+)`', text)


class Page:
    """`calls`: by a call's name the parts of what is said of it, {label: text}, `signature` with them. A call has a section under
    its name; or it is a row of the table that its crate's section begins with, and then it has the part `all` too, the sentence
    in which that section says why its calls are determined. `twice`: what is there twice, a call or a part of one."""

    def __init__(self, text):
        self.calls, self.twice = {}, []
        self.sections = {section.partition('\n')[0]: section for section in re.split(r'^## ', text, flags=re.M)[1:]}
        for section in self.sections.values():
            lead, *rest = re.split(r'^### ', section, flags=re.M)
            self.read_rows(lead)
            for text in rest:
                self.read_call(text)

    def read_rows(self, lead):
        """The calls that are rows of a table: its first row names the parts."""
        sentence = re.search(r'^Determined: (.*)', lead, re.M)
        for table in re.findall(r'(?:^\|.*\n?)+', lead, re.M):
            labels, _, *rows = [cells(line) for line in table.splitlines()]
            for row in rows if labels[0] == 'call' else []:
                name, _, parameters = row[0].removeprefix('`').partition('`')
                more = {'signature': name.rpartition('::')[2] + parameters, 'all': sentence.group(1) if sentence else ''}
                self.say(name, dict(zip(labels[1:], row[1:])) | more)

    def read_call(self, text):
        """The section of one call; one whose heading is no call's name is about theorems."""
        heading, signature = CALL.fullmatch(text.partition('\n')[0].strip()), SIGNATURE.search(text)
        if not heading:
            return
        name, parts = heading.group(1), [(label.lower(), flat(said)) for label, said in PART.findall(text)]
        labels = [label for label, _ in parts]
        self.twice += [f'{name}: {label}' for label in sorted(set(labels)) if labels.count(label) > 1]
        self.say(name, dict(parts) | {'signature': signature.group(1) if signature else ''})

    def say(self, name, parts):
        if name in self.calls:
            self.twice.append(name)
        self.calls[name] = parts

    def wrong_programs(self, name):
        return edits(self.calls.get(name, {}).get('wrong programs', ''))
