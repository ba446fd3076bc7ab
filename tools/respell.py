#!/usr/bin/env python3
"""Spells the repository's own definitions and lemmas in snake case, types and modules in camel case.

Run once at the top of the repository. A lemma that would have the name of a definition gets `_lem`; a
definition that would have the name of a struct's field gets `_of`. Functions of src/, exported names,
strings, inputs and outputs keep their names. Prints what fell together.
"""
import collections
import glob
import re

SIGNATURE = re.compile(
    r"^(\s*)((?:(?:unfoldable|abbrev|pub|package)\s+)*)(record |data |module |ruleset )?"
    r"([^\s(){}\[\],;:]+(?:\s+[^\s(){}\[\],;:]+)*?)\s*((?:[({].*?[)}]\s*)*):\s"
)
KEYWORDS = {"pub", "abbrev", "unfoldable", "record", "data", "module", "let", "in", "where", "ruleset"}
TOKEN = re.compile(r"[^\s()\[\]{},;:.`\"@⌜⌝]+")


def files(*patterns):
    return sorted(f for p in patterns for f in glob.glob(p, recursive=True))


def defined(paths):
    """The names that signatures and record fields in these files define."""
    found = set()
    for path in paths:
        for line in open(path, encoding="utf-8"):
            if line.strip().startswith(("--", "use ")):
                continue
            match = SIGNATURE.match(line)
            if not match or any(c in match.group(4) for c in "λ=.↦→×≡,◌?"):
                continue
            if match.group(3) in ("record ", "data ", "module ", "ruleset "):
                continue
            found.update(n for n in match.group(4).split() if n not in KEYWORDS)
    return found


def aliases():
    """The names that a `use` gives in the older spelling."""
    text = "".join(open(f, encoding="utf-8").read() for f in files("crates/*/src/*.rt", "crates/*/**/*.antt"))
    return {n for n in re.findall(r" as ([a-z]+[A-Z]\w*)", text)}


def fields():
    """The names of the fields of structs in src/."""
    return {
        m.group(1)
        for f in files("crates/*/src/*.rt")
        for m in re.finditer(r"^    (?:pub )?([a-z_0-9]+): [A-Za-z&\[]", open(f, encoding="utf-8").read(), re.M)
    }


def snake(name):
    spelled = re.sub(r"(?<=[a-z0-9])[A-Z]", lambda m: "_" + m.group(0).lower(), name)
    return spelled.replace("-", "_").replace("′", "'").lower()


def is_own(name):
    return not name[0].isupper() or "-" in name


def mapping():
    definitions = {n for n in defined(files("crates/*/specs/*.antt")) if is_own(n)}
    lemmas = {n for n in defined(files("crates/*/proofs/*.antt")) if is_own(n)} - definitions
    struct_fields = fields()
    spelled = {}
    taken = collections.defaultdict(set)
    definitions |= aliases()
    plain = {n for n in definitions if "-" not in n and "_" not in n}
    for name in sorted(plain):
        new = snake(name)
        if new != name and new in struct_fields:
            new += "_of"
        spelled[name] = new
        taken[new].add(name)
    for name in sorted(definitions - plain) + sorted(lemmas):
        new = snake(name)
        if new in taken:
            new += "_lem"
        spelled[name] = new
        taken[new].add(name)
    for new, old in sorted(taken.items()):
        if len(old) > 1:
            print("fall together:", new, sorted(old))
    return {old: new for old, new in spelled.items() if old != new}


def turned(text, spelled):
    """A name that is spelled as functions are is turned in proofs alone, and not where it is a field or a folder."""
    def turn(match):
        name = match.group(0)
        if name == name.lower() and "-" not in name and text[match.start() - 1 : match.start()] == ".":
            return name
        return spelled.get(name, name)

    return TOKEN.sub(turn, text)


def of_specs(spelled):
    """The names that no function of src/ can have."""
    return {old: new for old, new in spelled.items() if old != old.lower() or "-" in old}


def turn_file(path, spelled, turn):
    old = open(path, encoding="utf-8").read()
    new = turn(old, spelled)
    if new != old:
        open(path, "w", encoding="utf-8").write(new)


def in_quotes(text, spelled):
    """Only what stands in backticks."""
    return re.sub(r"`[^`\n]+`", lambda m: turned(m.group(0), spelled), text)


def main():
    spelled = mapping()
    for path in files("crates/*/specs/**/*.antt", "crates/*/proofs/**/*.antt"):
        turn_file(path, spelled, turned)
    for path in files("crates/*/src/*.rt", "crates/*/must-fail/*.edit"):
        turn_file(path, of_specs(spelled), turned)
    for path in files("README.md", "docs/*.md"):
        turn_file(path, of_specs(spelled), in_quotes)
    print(len(spelled), "names spelled anew")


if __name__ == "__main__":
    main()
