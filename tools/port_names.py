#!/usr/bin/env python3
"""Brings the names of the repository's own definitions and lemmas to the spelling of the present toolchain.

usage: tools/port_names.py [--check]

Run it once, at the top of the repository, after the toolchain's own port script. A definition or a lemma whose name is in camel case
or has dashes gets a name in snake case: `entryFor` becomes `entry_for`, and `all-short` becomes `all_short`. Names that begin with a
capital letter (types, facts and constants) keep their letters. Functions, types and constants of src/ keep their names.
It rewrites specs/, proofs/, the clauses and `ghost use` lines of src/, the must-fail edits, and names between backticks in documents.
It prints each pair of names that become one. With --check it writes nothing.
"""

import os
import re
import sys

HEAD = re.compile(
    r"^\s*(?:unfoldable |abbrev |pub |data |record |ruleset )*([^\s:(){}\[\],;.λ]+)(?: [({][^)}]*[)}])*\s*(?::(?!=)|where)"
)
TOKEN = re.compile(r"[^\s(){}\[\],;.«»`\"]+")
WORDS = re.compile(r"(?<=[a-z0-9])(?=[A-Z])")
# Names with these parts are made by the toolchain, not by this repository.
MADE = re.compile(r"^(returns|loop|invariant|decreases|Need-|In-|After-|Then|Else|At-)")
# Names of the toolchain's library that a lemma of this repository has too.
THE_LIBRARYS = {"and-true", "and-false"}
# A lemma that would have the name of its definition ends in _lem. The others would have a name that something else in their file has.
BY_HAND = {
    "is-nan": "only_nan",
    "of-bits": "root_by_bits",
    "entryRead": "entry_bytes_read",
    "noAnswer": "has_no_answer",
    "longWay": "is_long_way",
    "are-bytes": "are_bytes_lem",
    "count-of": "count_of_lem",
    "entry-at": "entry_at_lem",
    "units_of": "units_of_lem",
    "step_by": "step_by_lem",
}


def snake(name):
    if "-" not in name and not re.search(r"[a-z0-9][A-Z]", name):
        return name
    if not re.match(r"[^\W\d_]", name) or name.endswith("-") or ">" in name or "→" in name:
        return name
    parts = name.split("-")
    if name[0].isupper() and len(parts) == 1:
        return name
    turned = [p if p[:1].isupper() else WORDS.sub("_", p).lower() for p in parts]
    return "_".join(turned)


def files(root, endings, tops):
    for folder, folders, names in os.walk(root):
        folders[:] = sorted(f for f in folders if f not in ("out", "target", ".git"))
        for name in sorted(names):
            path = os.path.join(folder, name)
            parts = os.path.relpath(path, root).split(os.sep)
            if name.endswith(endings) and (not tops or (len(parts) > 2 and parts[1] in tops)):
                yield path


def of_function(path):
    """Whether the file belongs to the proof of one function, in a folder of proofs/."""
    folder, name = os.path.split(path)
    return name in ("Proof.antt", "Answers.antt", "Invariants.antt") and os.path.basename(folder) != "proofs"


def declared():
    found = {}
    for path in files("crates", (".antt",), ("specs", "proofs")):
        if of_function(path):
            continue
        with open(path, encoding="utf-8") as file:
            for line in file:
                head = None if line.lstrip().startswith(("--", "use ", "let ", "module ")) else HEAD.match(line)
                if head:
                    found.setdefault(head[1], set()).add(path)
    return found


def names():
    known = set(declared())
    definitions = {snake(name) for name in known if "-" not in name}
    table = {}
    for name in known:
        new = BY_HAND.get(name, snake(name))
        if "-" in name and name not in BY_HAND and new in definitions:
            new += "_lem"
        if new != name and not MADE.match(name) and name not in THE_LIBRARYS:
            table[name] = new
    table.update(BY_HAND)
    return table


def with_turned(table):
    """The table for texts that the toolchain's script leaves alone: with the names that this script has turned already."""
    known = {table.get(name, name) for name in declared()}
    told = dict(table)
    for path in list(files("crates", (".edit",), ())) + ["README.md"] + list(files("docs", (".md",), ())):
        with open(path, encoding="utf-8") as file:
            for name in TOKEN.findall(file.read()):
                if name not in told and snake(name) != name and snake(name) in known:
                    told[name] = snake(name)
    return told


def turned(text, table):
    return TOKEN.sub(lambda it: table.get(it[0], it[0]), text)


def turn_answers(text, table):
    """Turns a proof file of a function. What follows a dot there is a step or a goal, which the toolchain names."""
    return "\n".join(
        line if line.startswith("--") else re.sub(r"(?<![.\w])" + TOKEN.pattern, lambda it: table.get(it[0], it[0]), line)
        for line in text.split("\n")
    )


def turn_antt(text, table):
    lines = []
    for line in text.split("\n"):
        code, dash, comment = line.partition("-- ") if line.lstrip().startswith("-- ") or "  -- " in line else (line, "", "")
        camel = {old: new for old, new in table.items() if "-" not in old}
        lines.append(turned(code, table) + dash + turned(comment, camel))
    return "\n".join(lines)


def turn_rt(text, table):
    camel = {old: new for old, new in table.items() if "-" not in old}
    lines, depth = [], 0
    for line in text.split("\n"):
        clause = re.match(r"\s*(requires|ensures|ghost)\b", line)
        if depth or clause:
            depth += line.count("{") - line.count("}")
            lines.append(turned(line, table))
        elif line.lstrip().startswith("//"):
            lines.append(turned(line, camel))
        else:
            lines.append(line)
    return "\n".join(lines)


def turn_edit(text, table):
    lines, antt = [], False
    for line in text.split("\n"):
        if line.startswith("file:"):
            antt = line.strip().endswith(".antt")
        of_clause = antt or re.match(r"(old|new):\s*(requires|ensures|ghost)\b", line)
        camel = {old: new for old, new in table.items() if "-" not in old}
        lines.append(turned(line, table if of_clause else camel) if line.startswith(("old:", "new:")) else line)
    return "\n".join(lines)


def turn_document(text, table):
    return re.sub(r"`[^`\n]+`", lambda it: turned(it[0], table), text)


def main():
    check = "--check" in sys.argv[1:]
    table = names()
    told = with_turned(table)
    together = {}
    for old, new in table.items():
        together.setdefault(new, set()).add(old)
    known = declared()
    for new, olds in sorted(together.items()):
        if len(olds) > 1 or new in known:
            print("together:", new, sorted(olds), "also declared" if new in known else "")
    for path in files("crates", (".antt", ".rt", ".edit"), ("specs", "proofs", "src", "must-fail")):
        with open(path, encoding="utf-8") as file:
            text = file.read()
        turn = turn_antt if path.endswith(".antt") else turn_rt if path.endswith(".rt") else turn_edit
        if of_function(path):
            turn = turn_answers
        new = turn(text, told if path.endswith(".edit") else table)
        if new != text and not check:
            with open(path, "w", encoding="utf-8") as file:
                file.write(new)
    documents = ["README.md"] + list(files("docs", (".md",), ()))
    for path in documents:
        if os.path.basename(path) == "PORT.md":
            continue
        with open(path, encoding="utf-8") as file:
            text = file.read()
        new = turn_document(text, told)
        if new != text and not check:
            with open(path, "w", encoding="utf-8") as file:
                file.write(new)
    print(len(table), "names turned")


if __name__ == "__main__":
    main()
