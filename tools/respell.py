#!/usr/bin/env python3
"""Respells the repository's own names in snake case, in specs/, proofs/, clauses and docs/.

Run once, at the top, right after the kit's own script; it changes nothing when run again. A definition's name has underscores
throughout, a type's is in upper camel case. In a lemma's name a dash stays where it joins two names that the repository or the library
defines, as in `over-single`; elsewhere an underscore stands, as in `size_more`. In comments and documents only names in backticks are
turned. Names of goals, of the library, of functions in src/, strings, inputs and outputs are left alone. It stops where two of the names
would fall together, and prints those that stand for something else already.
"""
import pathlib
import re
import sys

TOP = pathlib.Path(__file__).resolve().parent.parent
LIBRARY = {
    "zero", "suc", "true", "false", "not", "or", "and", "cond", "eqb", "ltb", "leb", "lt", "le", "length", "map", "take", "drop", "set",
    "replicate", "get_or", "reverse", "nil",
}
WORD = r"[A-Za-z][A-Za-z0-9_']*(?:-[A-Za-z0-9_'◌]+)+"
SIGNATURE = re.compile(
    r"^(?P<indent>\s*)(?:pub )?(?P<kind>abbrev |unfoldable )?(?:pub )?(?P<names>" + WORD + r"(?: " + WORD + r")*) : (?P<type>.*)$"
)


def is_laws(path):
    """Whether a file of specs/ has lemmas."""
    return path.stem.endswith("Laws") or path.stem == "CardLawful"


def own_names():
    """The kebab names that the repository defines: (definitions, lemmas)."""
    definitions, lemmas = set(), set()
    for path in sorted(TOP.glob("crates/*/*/**/*.antt")):
        in_specs = path.relative_to(TOP).parts[2] == "specs"
        for line in path.read_text().splitlines():
            found = SIGNATURE.match(line)
            if not found or found["type"].startswith(("goal.", "need.", "needs.")):
                continue
            for name in found["names"].split():
                if found["kind"] or (in_specs and not is_laws(path)):
                    definitions.add(name)
                else:
                    lemmas.add(name)
    return definitions, lemmas - definitions


def respelled(name, names):
    """A lemma's name: a dash stays between two names, the longest that fit."""
    parts, dashes = re.split("[-_]", name), re.findall("[-_]", name)
    text, before, i = "", False, 0
    while i < len(parts):
        ends = [j for j in range(len(parts), i, -1) if "_".join(parts[i:j]) in names]
        j = ends[0] if ends else i + 1
        if text:
            text += "-" if before and ends and dashes[i - 1] == "-" else "_"
        text += "_".join(parts[i:j])
        before, i = bool(ends), j
    return text


def as_type(name):
    """A type's name: upper camel case."""
    return "".join(part[0].upper() + part[1:] for part in name.split("-"))


def single_names():
    """The names of definitions that have no dash."""
    plain = re.compile(r"^(?P<pub>pub )?(?P<kind>abbrev |unfoldable )?(?:pub )?(?P<name>[a-z][A-Za-z0-9_']*) : ")
    found = set()
    for path in TOP.glob("crates/*/*/**/*.antt"):
        in_specs = path.relative_to(TOP).parts[2] == "specs"
        for line in path.read_text().splitlines():
            match = plain.match(line)
            if match and (match["kind"] or in_specs and not is_laws(path)):
                found.add(match["name"])
    return found


def main():
    definitions, lemmas = own_names()
    names = LIBRARY | single_names() | {d.replace("-", "_") for d in definitions}
    to = {d: as_type(d) if d[0].isupper() else d.replace("-", "_") for d in definitions}
    to |= {l: respelled(l.replace("getD", "get_or"), names) for l in lemmas}
    to = {old: new for old, new in to.items() if old != new}
    texts = {
        path: path.read_text()
        for pattern in ("crates/*/*/**/*.antt", "crates/*/src/**/*.rt", "docs/*.md")
        for path in TOP.glob(pattern)
        if path.name not in ("PORT.md", "PORT-OTHER.md")
    }
    every = "\n".join(texts.values())
    taken = set(re.findall(r"[A-Za-z][A-Za-z0-9_'-]*", every))
    clashes = [f"{old} -> {new}" for old, new in to.items() if new in taken]
    twice = [new for new in set(to.values()) if list(to.values()).count(new) > 1]
    if twice:
        sys.exit(f"fall together: {twice}")
    for clash in sorted(clashes):
        print(f"stands already: {clash}")
    if not to:
        return
    pattern = re.compile(r"(?<![\w'◌-])(" + "|".join(sorted(map(re.escape, to), key=len, reverse=True)) + r")(?![\w'◌-])")
    quoted = re.compile(r"`[^`\n]*`")
    comment = re.compile(r"(?m)(//|--)(?: .*)?$")

    def name_of(match):
        return to[match[1]]

    def in_quotes(text):
        return quoted.sub(lambda m: pattern.sub(name_of, m[0]), text)

    for path, text in texts.items():
        if path.suffix == ".md":
            new = in_quotes(text)
        else:
            lines = []
            for line in text.split("\n"):
                found = comment.search(line)
                at = found.start() if found else len(line)
                lines.append(pattern.sub(name_of, line[:at]) + in_quotes(line[at:]))
            new = "\n".join(lines)
        if new != text:
            path.write_text(new)
    for old, new in sorted(to.items()):
        print(f"{old} {new}")


if __name__ == "__main__":
    main()
