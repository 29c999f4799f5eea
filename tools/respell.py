#!/usr/bin/env python3
"""Brings this repository's own definitions and lemmas to the spelling of today's Rattle.

usage: python3 tools/respell.py     once, at the top of the repository, after the kit's own scripts

A definition or lemma is in snake case: `twiceMedian` becomes `twice_median`, `middle-of-nine` becomes
`middle_of_nine`. So are the fields of its records and the constructors of its types. Types, modules,
functions of src/, strings, inputs and outputs keep their names. A definition or lemma is turned only in files
that declare it or import it from a module of the repository that declares it, a field in every file. Names that
would fall together are told, and nothing is written. The names that were turned are printed, a line each.
"""

import glob
import os
import re
import sys

DECLARED = re.compile(r"^(?:abbrev |unfoldable |pub |data |record |ruleset |infix\S* \d+ )*([^\s:(){}]+)\s*(?:\(|\{|:(?!:))")
# A word of antt: what stands between blanks, brackets, commas, semicolons and points.
WORD = re.compile(r"[^\s(){}\[\].,;:`\"|λ→↦⟨⟩]+")


# What would fall together with another name once it is in snake case.
OTHERWISE = {
    ("Rattle.beam.proofs.Parts", "no-row"): "each_no_row",
    ("Rattle.filter.proofs.Ranks", "one_below"): "one_where_below",
    ("Rattle.filter.proofs.Ranks", "none_below"): "none_where_below",
    ("Rattle.records.proofs.Outcomes", "size-of"): "size_is",
    ("Rattle.threshold.proofs.Rounds", "high-number"): "high_number_is",
    ("Rattle.threshold.proofs.Rounds", "low-number"): "low_number_is",
}
# A field that would hide a definition of its own record.
FIELDS = {"pass-three": "is_pass_three", "pass-two": "is_pass_two"}


def snake(name):
    return re.sub(r"(?<=[a-z0-9])([A-Z])", lambda m: "_" + m.group(1).lower(), name).replace("-", "_")


def members():
    """The fields of records and the constructors of types, in specs/ and proofs/."""
    found = set()
    for path in glob.glob("crates/*/specs/**/*.antt", recursive=True) + glob.glob("crates/*/proofs/*.antt"):
        inside = False
        for line in open(path, encoding="utf-8"):
            if re.match(r"(abbrev |unfoldable |pub )*(record|data) ", line):
                inside = True
            elif line.strip() and not line.startswith(" "):
                inside = False
            m = re.match(r"  (?:pub )?([^\s:]+) : ", line) if inside else None
            if m and snake(m.group(1)) != m.group(1):
                found.add(m.group(1))
                found.update(p for p in [m.group(1).strip("◌")] if p != m.group(1))
    return {n: FIELDS.get(n, snake(n)) for n in found}


def module_of(path):
    """crates/c/specs/inside/A.antt -> Rattle.c.specs.inside.A"""
    parts = path[: -len(".antt")].split("/")
    return "Rattle." + ".".join(parts[1:])


def declared(path):
    """The names that a file declares, those in its modules with arguments (`module _ (..) where`) too."""
    found = set()
    depth = 0
    for line in open(path, encoding="utf-8"):
        if not line.strip() or line.lstrip().startswith("--"):
            continue
        indent = len(line) - len(line.lstrip(" "))
        depth = min(depth, indent // 2)
        rest = line[2 * depth :]
        if rest.startswith("module _"):
            depth += 1
            continue
        m = DECLARED.match(rest)
        if m and not rest.startswith((" ", "use ", "pub use ", ")", "|")) and m.group(1) not in ("module", "mod", "where"):
            found.add(m.group(1))
    return found


def stale(module, name, known):
    """Whether a module of the repository is asked for a name that it has in snake case alone."""
    return module in known and name not in known[module] and snake(name) in known[module]


def imports(text):
    """The pairs (module, names) of the file's use lines; names is None where the module is named as a whole."""
    for m in re.finditer(r"use (Rattle\.[\w.+]+)\.\{([^}]*)\}", text):
        yield m.group(1), [n.strip() for n in m.group(2).split(",") if n.strip()], None
    for m in re.finditer(r"use (Rattle\.[\w.+]+) as (\w+)", text):
        yield m.group(1), None, m.group(2)


def main():
    laws = sorted(glob.glob("crates/*/specs/**/*.antt", recursive=True) + glob.glob("crates/*/proofs/*.antt"))
    turned = {}
    known = {}
    clash = []
    for path in laws:
        names = declared(path)
        known[module_of(path)] = names | set(WORD.findall(open(path, encoding="utf-8").read()))
        mine = {n: OTHERWISE.get((module_of(path), n), snake(n)) for n in names if not n[0].isupper()}
        mine = {n: new for n, new in mine.items() if new != n}
        for n, new in mine.items():
            if new in names or sum(1 for x in mine.values() if x == new) > 1:
                clash.append(f"{path}: {n} would fall together with {new}")
        turned[module_of(path)] = mine
    files = sorted(p for p in glob.glob("crates/**/*", recursive=True) if p.endswith((".antt", ".rt", ".edit")) and "/out/" not in p)
    plans = []
    fields = members()
    for path in files:
        text = open(path, encoding="utf-8").read()
        here = dict(turned.get(module_of(path), {})) if path.endswith(".antt") else {}
        aliases = {}
        looked = text
        if path.endswith(".edit"):
            # an edit has the names of the file that it edits
            for name in re.findall(r"(?m)^file: (\S+)", text):
                target = "/".join(path.split("/")[:2]) + "/" + name
                if os.path.exists(target):
                    looked += "\n" + open(target, encoding="utf-8").read()
                    here.update(turned.get(module_of(target), {}) if target.endswith(".antt") else {})
        foreign = set()
        for module, names, alias in imports(looked):
            if names is None:
                aliases[alias] = turned.get(module, {})
                continue
            for n in names:
                plain, _, called = n.partition(" as ")
                if plain in turned.get(module, {}):
                    here[plain] = turned[module][plain]
                elif stale(module, plain, known):
                    here[plain] = snake(plain)
                elif not called and module not in known:
                    foreign.add(plain)
                if called and not called[0].isupper() and snake(called) != called:
                    here[called] = snake(called)
        mine_here = {n: new for n, new in fields.items() if n not in foreign}
        for n, new in here.items():
            if n in foreign:
                clash.append(f"{path}: {n} is imported from elsewhere too")
            if new in foreign or (path.endswith(".antt") and new in declared(path) and new not in here):
                clash.append(f"{path}: {n} would fall together with {new}")
        plans.append((path, text, here, aliases, mine_here))
    if clash:
        print("\n".join(sorted(set(clash))))
        return 1
    for path, text, here, aliases, mine_here in plans:
        out = []
        for line in text.split("\n"):
            antt = path.endswith(".antt") or (path.endswith(".edit") and "file: src" not in text)
            clause = antt or re.search(r"ghost use|requires|ensures|invariant|^\s*[(⌜]|^(old|new): ", line) or re.match(r"^\s+\(?\w+.*[.](now|old|new)", line)
            if not clause:
                out.append(line)
                continue
            def turn(m):
                w = m.group(0)
                before = line[: m.start()]
                dotted = re.search(r"(\w+)\.$", before)
                if dotted:
                    # a member of a module that is named as a whole
                    return aliases.get(dotted.group(1), {}).get(w, mine_here.get(w, w))
                return here.get(w, mine_here.get(w, w))
            out.append(WORD.sub(turn, line))
        new = "\n".join(out)
        if new != text:
            open(path, "w", encoding="utf-8").write(new)
    said = sorted({(n, new) for mine in [*turned.values(), fields] for n, new in mine.items()})
    for n, new in said:
        print(n, new)
    return 0


if __name__ == "__main__":
    sys.exit(main())
