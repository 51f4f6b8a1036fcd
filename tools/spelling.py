#!/usr/bin/env python3
"""Brings the names of the definitions, lemmas and fields of this repository to today's spelling: words in snake case, types and modules
in upper camel case. It runs once, over crates/, after the toolchain's own script; `--list` only prints the renamings, and the names that
would fall together.

What is renamed: a name that a file of specs/ or proofs/ declares (a definition, a lemma, a field, a name bound by `let` or a lemma's
clause), and no file of the toolchain's library. Functions of src/, strings and exported names keep theirs. A name that would fall
together with another of the same file ends in `_lem` where it is the lemma's.
"""

import collections
import glob
import os
import re
import sys

# the names of a path's modules are followed by a dot, or are the last part of a path that `use` names
WORD = re.compile(r"(?<![\w'.])(?:Rattle\.[\w.'+-]+\.(?=\{)|Rattle\.[\w.'+-]+)|[A-Za-zα-ωΑ-ΩℕℤΓΔ_][\wα-ω'₀-₉′⁺⁻-]*")
DECLARED = re.compile(r"^\s*(?:(?:unfoldable|abbrev|pub|pattern|ghost)\s+)*([^\s():{}\[\]⌜⌝λ,;=]+)\s+:(?=\s|$)")
BOUND = re.compile(r"\blet\s+([A-Za-z_][\w'₀-₉-]*)\b|[(,{]\s*((?:[A-Za-z_][\w'₀-₉-]*\s+)*[A-Za-z_][\w'₀-₉-]*)\s*:")
FIELD = re.compile(r"^\s*(?:pub )?([a-z][\w'₀-₉-]*)\s*=(?=\s)")
CLAUSE = re.compile(r"^\s*(?:\|\s*|\[\s*)?[A-Za-z]")
PARTS = re.compile(r"-")
# made by the toolchain, by the source's names: the files of a function's proof speak of them
MADE = re.compile(r"^(?:Need|After|In|At|Left|Where)-|^(?:loop|returns|invariant|decreases|the)(?:-|$)")
# lemmas that the toolchain's script, or this one, would give the name of what they speak of
LEMMAS = {
    "changed_row": "changed_row_lem",
    "nearest_in": "nearest_in_lem",
    "slot_lent": "slot_lent_lem",
    "getD-listOf": "get_or_list_of",
    "read-levels": "read_levels",
    "rows9To12": "rows_9_to_12",
    "plusOne": "plus_one_level",
    "minusOne": "minus_one_level",
}


def texts():
    for kind in ("antt", "rt"):
        for path in sorted(glob.glob("crates/*/**/*." + kind, recursive=True)):
            if "/out/" not in path:
                yield path


def snake(name):
    if "-" in name and not name[0].isupper():
        name = name.replace("-", "_")
    if not name[0].isupper():
        name = re.sub(r"(?<=[a-z0-9₀-₉'])([A-Z])(?=[a-z]|$|_)", lambda m: "_" + m.group(1).lower(), name)
        name = re.sub(r"(?<=_)([A-Z])(?=_|$)", lambda m: m.group(1).lower(), name)
    return name


def library():
    """The names that the toolchain's library gives and that this repository brings in."""
    names = set()
    for path in texts():
        text = open(path, encoding="utf-8").read()
        for m in re.finditer(r"use ([\w.·]+)\.\{([^}]*)\}", text):
            if not m.group(1).startswith("Rattle.") or m.group(1).startswith("Rattle.std."):
                for word in m.group(2).split(","):
                    names.add(word.split(" as ")[0].strip())
    return names


def declared():
    names = collections.Counter()
    for path in texts():
        if not path.endswith(".antt"):
            continue
        for line in open(path, encoding="utf-8"):
            line = line.split("--")[0]
            m = DECLARED.match(line)
            if m:
                names[m.group(1)] += 1
            for m in BOUND.finditer(line):
                for word in (m.group(1) or m.group(2)).split():
                    names[word] += 1
            if path.endswith("Proof.antt"):
                continue
            m = FIELD.match(line)
            if m:
                names[m.group(1)] += 1
    return names


def renamings():
    kept, names = library(), declared()
    words = {snake(n) for n in names if "-" not in n} | kept
    to = {}
    for name in names:
        if name in LEMMAS:
            to[name] = LEMMAS[name]
        elif name not in kept and not MADE.match(name) and snake(name) != name:
            new = snake(name)
            # a lemma beside the definition that it speaks of
            to[name] = new + "_lem" if "-" in name and new in words else new
    return to


def turned(path, text, to):
    def swap(m):
        if m.group(0).startswith("Rattle."):
            return m.group(0)
        return to.get(m.group(0), m.group(0))

    out = []
    inside = False
    for line in text.split("\n"):
        if path.endswith(".antt"):
            code, mark, note = line.partition("--") if re.match(r"\s*--", line) or " -- " in line else (line, "", "")
            # a name in the back quotes of a comment is turned too
            out.append(WORD.sub(swap, code) + mark + re.sub(r"`[^`]*`", lambda m: WORD.sub(swap, m.group(0)), note))
            continue
        # source: names in the back quotes of comments, ghost lines and clauses
        stripped = line.strip()
        if stripped.startswith("//"):
            out.append(re.sub(r"`[^`]*`", lambda m: WORD.sub(swap, m.group(0)), line))
            continue
        if re.match(r"(pub )?ghost |requires\b|ensures\b|invariant\b", stripped):
            inside = True
        if inside:
            out.append(WORD.sub(swap, line))
            if stripped.endswith(("}", ";", "},")):
                inside = False
        else:
            out.append(line)
    return "\n".join(out)


def together(to):
    """For each file the names that would fall together."""
    for path in texts():
        words = collections.defaultdict(set)
        for line in open(path, encoding="utf-8"):
            if path.endswith(".antt"):
                line = line.split("--")[0]
            else:
                line = line.split("//")[0]
            for m in WORD.finditer(line):
                if m.group(0).startswith("Rattle."):
                    continue
                words[to.get(m.group(0), m.group(0))].add(m.group(0))
        for new, olds in sorted(words.items()):
            if len(olds) > 1:
                yield path, new, sorted(olds)


def main():
    to = renamings()
    if "--list" in sys.argv:
        for old, new in sorted(to.items()):
            print(f"{old}\t{new}")
        for path, new, olds in together(to):
            print(f"TOGETHER {path}: {new}: {' '.join(olds)}")
        return
    changed = 0
    for path in texts():
        text = open(path, encoding="utf-8").read()
        new = turned(path, text, to)
        if new != text:
            open(path, "w", encoding="utf-8").write(new)
            changed += 1
    # names in the pages, in back quotes; `changed_row` and its like are the definition's there
    pages = {old: new for old, new in to.items() if "-" in old or old.lower() != old}
    for path in ["README.md", *sorted(glob.glob("docs/**/*.md", recursive=True))]:
        if os.path.basename(path) == "PORT.md":
            continue
        text = open(path, encoding="utf-8").read()
        new = re.sub(r"`[^`\n]*`", lambda m: re.sub(r"[\w'₀-₉-]+", lambda w: pages.get(w.group(0), w.group(0)), m.group(0)), text)
        if new != text:
            open(path, "w", encoding="utf-8").write(new)
            changed += 1
    print(f"spelling: {len(to)} names, {changed} files")


if __name__ == "__main__":
    main()
