#!/usr/bin/env python3
"""The definitions that the headline rests on, in reading order, with line counts.

Reads the statements that `PARTS` names (contracts of public functions) and follows each name to its
definition in `crates/*/specs`, and on from there. Prints one row for each file that has such
definitions: how many lines they take, with the comments above them, and their names. A file stands behind all
files that it rests on.

    python3 docs/headline.py            prints the table
    python3 docs/headline.py --check    ends with 1 where the table in docs/HEADLINE.md is another one
    python3 docs/headline.py --write    puts the table there
"""

import os
import re
import sys

TOP = os.path.dirname(os.path.dirname(os.path.abspath(__file__)))
PAGE = os.path.join(TOP, "docs", "HEADLINE.md")
BEGIN, END = "<!-- definitions: written by docs/headline.py -->", "<!-- end of definitions -->"

# The statements of the headline, in three parts: source files, and the functions whose contracts are meant.
PARTS = [
    ("The headline itself", [
        ("ocm_law_openings/src/keeping.rt", ["sessions_keep_what_is_promised", "every_server_keeps_what_is_promised"]),
        ("ocm_law_world/src/guests.rt", ["a_confirmed_share_was_made_by_its_owner"]),
    ]),
    ("What a script adds", [
        ("ocm_law_replay/src/replaying.rt", ["command_keeps_what_is_promised"]),
    ]),
    ("What a running server adds", [
        ("ocm_law_serve/src/running.rt", ["serve_keeps_what_is_promised", "runs_of_one_server_keep_what_is_promised"]),
        ("ocm_law_network/src/laws.rt", ["a_confirmed_share_was_made_by_its_owner_in_the_network"]),
    ]),
]

WORD = re.compile(r"[A-Za-z_][\w-]*(?:\.[A-Za-z_][\w-]*)*")
USE = re.compile(r"^\s*(?:ghost )?(?:pub )?use Rattle\.(\w+)\.specs\.([\w.]+?)(?:\.\{(.*?)\})?(?: as ([\w-]+))?;?\s*$")
ITEM = re.compile(r"^(?:abbrev |unfoldable |pub )*(?:data |record )?([A-Za-z_][\w-]*)\b")


def read(path):
    with open(path, encoding="utf-8") as file:
        return file.read()


def imports_of(text):
    """What each name of a file stands for: (crate, module, name), or (crate, module, None) for a module."""
    names = {}
    for line in text.split("\n"):
        found = USE.match(line)
        if not found:
            continue
        crate, module, items, alias = found.groups()
        if items is None:
            names[alias or module.split(".")[-1]] = (crate, module, None)
            continue
        for item in re.split(r",\s*", items):
            name, _, other = item.partition(" as ")
            names[other or name] = (crate, module, name)
    return names


class Specs:
    """One file of definitions: its paragraphs, by the name that each defines."""

    def __init__(self, crate, module):
        self.path = f"crates/{crate}/specs/{module.replace('.', '/')}.antt"
        self.text = read(os.path.join(TOP, self.path))
        self.imports = imports_of(self.text)
        self.items = {}
        self.owner = {}
        for paragraph in re.split(r"\n\s*\n", self.text):
            lines = [line for line in paragraph.split("\n") if line.strip()]
            code = [line for line in lines if not line.startswith("--") and not line.startswith("use ")]
            if not code:
                continue
            named = ITEM.match(code[0])
            if not named:
                continue
            name = named.group(1)
            self.items[name] = (len([line for line in lines if not line.startswith("use ")]), "\n".join(code))
            self.owner[name] = name
            if not re.search(r"\bdata\b", code[0]):
                continue
            for line in code[1:]:
                variant = re.match(r"^\s+(?:pub )?([A-Za-z_][\w-]*) :", line)
                if variant:
                    self.owner.setdefault(variant.group(1), name)


FILES = {}


def specs_of(crate, module):
    """The file of a module, or of the module around it; None for what is declared by a source file."""
    while module and not module.startswith("declared"):
        path = os.path.join(TOP, f"crates/{crate}/specs/{module.replace('.', '/')}.antt")
        if os.path.isfile(path):
            if (crate, module) not in FILES:
                FILES[(crate, module)] = Specs(crate, module)
            return (crate, module)
        module = module.rpartition(".")[0]
    return None


def targets(names, imports, own):
    """The definitions that these words name."""
    for word in names:
        head, _, rest = word.partition(".")
        if own is not None and head in FILES[own].owner:
            yield own, FILES[own].owner[head]
            continue
        if head not in imports:
            continue
        crate, module, name = imports[head]
        if not os.path.isdir(os.path.join(TOP, "crates", crate)):
            continue
        key = specs_of(crate, module if name is not None else module)
        if key is None:
            continue
        wanted = name if name is not None else rest.split(".")[0]
        found = FILES[key].owner.get(wanted) or FILES[key].owner.get(module.split(".")[-1])
        if found:
            yield key, found


def contracts(path, functions):
    """The clauses of these functions, and the imports of their file."""
    text = read(os.path.join(TOP, "crates", path))
    clauses = []
    for function in functions:
        found = re.search(rf"^pub fn {function}\b(.*?)^\{{", text, re.S | re.M)
        if not found:
            sys.exit(f"docs/headline.py: no function {function} in crates/{path}")
        clauses.append(found.group(1))
    return "\n".join(clauses), imports_of(text)


def reached(laws):
    """Each definition that these laws reach, and which files each file rests on."""
    seen, below = set(), {}
    todo = []
    for path, functions in laws:
        clauses, imports = contracts(path, functions)
        todo += targets(WORD.findall(clauses), imports, None)
    while todo:
        key, name = todo.pop()
        if (key, name) in seen:
            continue
        seen.add((key, name))
        below.setdefault(key, set())
        for other in targets(WORD.findall(FILES[key].items[name][1]), FILES[key].imports, key):
            if other[0] != key:
                below[key].add(other[0])
            todo.append(other)
    return seen, below


def in_order(below):
    """The files, each behind those that it rests on."""
    order, state = [], {}

    def visit(key):
        if state.get(key):
            return
        state[key] = 1
        for other in sorted(below.get(key, ())):
            visit(other)
        order.append(key)

    for key in sorted(below):
        visit(key)
    return order


def table(laws, before):
    """The rows of the definitions that these laws reach and that were not reached before."""
    seen, below = reached(laws)
    rows, total = [], 0
    for key in in_order(below):
        file = FILES[key]
        names = [name for name in file.items if (key, name) in seen and (key, name) not in before]
        if not names:
            continue
        lines = sum(file.items[name][0] for name in names)
        total += lines
        shown = ", ".join(f"`{name}`" for name in names)
        rows.append(f"| `{file.path.removeprefix('crates/')}` | {lines} | {shown} |")
    head = ["| file | lines | definitions |", "|---|---|---|"]
    return "\n".join(head + rows + [f"| in all | {total} | |"]), seen


def tables():
    """One table for each part, with what the parts before it have not."""
    texts, before = [], set()
    for title, laws in PARTS:
        text, seen = table(laws, before)
        before |= seen
        texts.append(f"### {title}\n\n{text}")
    return "\n\n".join(texts)


def main():
    text = tables()
    if len(sys.argv) == 1:
        print(text)
        return
    page = read(PAGE)
    front, _, rest = page.partition(BEGIN)
    _, _, back = rest.partition(END)
    new = f"{front}{BEGIN}\n\n{text}\n\n{END}{back}"
    if sys.argv[1] == "--write":
        with open(PAGE, "w", encoding="utf-8") as file:
            file.write(new)
    elif new != page:
        sys.exit("docs/HEADLINE.md: the table of definitions is not that of the sources; run docs/headline.py --write")


main()
