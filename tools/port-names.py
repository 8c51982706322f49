#!/usr/bin/env python3
"""Respells the repository's own definitions and lemmas as Rattle's are spelled: words in snake case (`cardAt`, `card-before`: `card_at`,
`card_before`). Run once, at the top, right after Rattle's port.py. Functions of src/, exported C names, strings, inputs and outputs keep theirs.

A name is the repository's own where a file of specs/ or proofs/ declares it or binds it. Where two names fall together, the definition has the
plain one and the lemma ends in _law.

    tools/port-names.py            respell in place
    tools/port-names.py --list     print old and new
"""
import collections
import pathlib
import re
import sys

TOKEN = re.compile(r"[^\s(){}\[\].,;\"`]+")
DECLARES = re.compile(r"\s*(?:(?:unfoldable|abbrev|pub|data|record|unfold|ruleset|\||infix[lr]?)\s+)*([^\s:(){}.,;=λ→|]+)\s*(?:[({][^)}]*[)}]\s*)*:\s")
BINDS = re.compile(r"[({]((?:[^\s:(){}.,;=]+\s+)+):\s")
DEFINES = re.compile(r"\s*(?:pub\s+|abbrev\s+)*([a-z][^\s:(){}.,;=λ→|]*)(?:\s+[^\s:=]+)*\s+=\s")

# What a definition of Rattle's own is called, or what its check makes: not ours.
NOT_OURS = re.compile(r"^(Need-|true≢false|κs$)")

# What port.py had respelled to a name that a definition of ours takes now: in the proofs of these crates.
TAKEN = [
    ("in_image", "in_image_law", ("geometry", "parity", "array", "history")),
    ("is_sum", "is_sum_law", ("graph",)),
    ("read_at", "read_at_law", ("graph",)),
    ("is_open", "record_open", ("array", "history")),
]

# What would be a name of Rattle's own.
OTHERWISE = {"bit-and": "bit_of_and", "put-mid": "put_mid_is"}


def snake(name):
    said = name.replace("-", "_")
    if said[:1].islower():
        said = re.sub(r"([a-z0-9])([A-Z])", lambda m: m[1] + "_" + m[2].lower(), said)
        said = re.sub(r"_([A-Z])(?=[a-z_]|$)", lambda m: "_" + m[1].lower(), said)
    return said


def names_of(text):
    for line in text.splitlines():
        if re.match(r"\s*--", line):
            continue
        m = DECLARES.match(line)
        if m:
            yield m[1]
        for m in BINDS.finditer(line):
            yield from m[1].split()
        m = DEFINES.match(line)
        if m and "-" in m[1]:
            yield m[1]


def table():
    declared = set()
    for path in pathlib.Path("crates").rglob("*.antt"):
        declared.update(names_of(path.read_text()))
    turned = {}
    for name in declared:
        if NOT_OURS.match(name) or not ("-" in name or re.search("[a-z0-9][A-Z]", name)):
            continue
        if name[0].islower() or "-" in name:
            if snake(name) != name:
                turned[name] = snake(name)
    together = collections.defaultdict(set)
    for old, new in turned.items():
        together[new].add(old)
    plain = {new for new, olds in together.items() if new in declared or len(olds) > 1}
    kept = {old for old, _, _ in TAKEN}
    for new in plain:
        for old in together[new]:
            camel = "-" not in old
            if not camel and (new in declared - kept or any("-" not in o for o in together[new])):
                turned[old] = new + "_law"
    turned.update(OTHERWISE)
    return turned


def everywhere(turned):
    """Also what port.py had respelled in the crates, which an edit or a page still spells as it was."""
    declared = set()
    for path in pathlib.Path("crates").rglob("*.antt"):
        declared.update(names_of(path.read_text()))

    class Said(dict):
        def get(self, name, otherwise=None):
            if name in turned:
                return turned[name]
            if ("-" in name or re.search("[a-z0-9][A-Z]", name)) and name[0].islower() and snake(name) in declared:
                return snake(name)
            return otherwise

    return Said()


def respell(text, turned):
    return TOKEN.sub(lambda m: turned.get(m[0], m[0]), text)


def in_source(text, turned):
    """Clauses, imports of definitions and comments of a source file; of its code nothing."""
    out, depth, ghost = [], 0, False
    camel = {old: new for old, new in turned.items() if "-" not in old}
    for line in text.split("\n"):
        head = line.lstrip()
        starts = re.match(r"(ghost\b|requires\b|ensures\b|invariant\b|decreases\b)", head)
        if starts or ghost:
            out.append(respell(line, turned))
            depth += line.count("{") - line.count("}")
            ghost = depth > 0
            if not ghost:
                depth = 0
        elif head.startswith("//"):
            out.append(re.sub(r"`([^`]*)`", lambda m: "`" + respell(m[1], turned) + "`", line))
        else:
            out.append(line)
    return "\n".join(out)


def in_page(text, turned):
    return re.sub(r"`([^`\n]*)`", lambda m: "`" + respell(m[1], turned) + "`", text)


def main():
    turned = table()
    if "--list" in sys.argv:
        for old, new in sorted(turned.items()):
            print(old, new)
        return
    said = everywhere(turned)
    for path in sorted(pathlib.Path("crates").rglob("*")):
        if "out" in path.parts or not path.is_file():
            continue
        text = path.read_text()
        if path.suffix == ".antt":
            for old, new, crates in TAKEN:
                if "proofs" in path.parts and path.parts[1] in crates:
                    text = re.sub(rf"(?<![\w.'-]){old}(?![\w'-])(?!\.)", new, text)
                    text = re.sub(rf"(?<=[a-z])\.{old}\b(?=[ );\n])", f".{new}", text)
            done = respell(text, turned)
        elif path.suffix == ".rt":
            done = in_source(text, turned)
        elif path.suffix == ".edit":
            done = "\n".join(
                l if l.startswith(("#", "file:")) else respell(l, said) for l in text.split("\n")
            )
        else:
            continue
        if done != path.read_text():
            path.write_text(done)
    for page in ["README.md", "CONTRIBUTING.md", *map(str, sorted(pathlib.Path("docs").rglob("*.md")))]:
        path = pathlib.Path(page)
        done = in_page(path.read_text(), said)
        if done != path.read_text():
            path.write_text(done)


if __name__ == "__main__":
    main()
