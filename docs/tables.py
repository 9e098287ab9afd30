#!/usr/bin/env python3
"""Writes what the sources give of docs/PROOFS.md: how many wrong bodies the gate tries, by crate.

    docs/tables.py           writes it
    docs/tables.py --check   writes nothing, and exits with 1 if the page says something else

It stands between the lines `<!-- wrong bodies -->` and `<!-- end -->`. A wrong body is a file of crates/*/must-fail.
"""
import pathlib
import sys

TOP = pathlib.Path(__file__).resolve().parent.parent
PAGE = TOP / "docs" / "PROOFS.md"
BEGIN, END = "<!-- wrong bodies -->\n", "<!-- end -->"


def counts():
    """The crates of crates.txt that have wrong bodies, each with how many these are."""
    for line in (TOP / "crates.txt").read_text().splitlines():
        if ":" in line and not line.startswith("#"):
            crate = line.split(":")[0].split()[0]
            count = len(list((TOP / "crates" / crate / "must-fail").glob("*.edit")))
            if count:
                yield crate, count


def listed():
    all_of_them = sum(count for _, count in counts())
    return f"{all_of_them} in all: " + ", ".join(f"`{crate}` {count}" for crate, count in counts()) + ".\n"


def main():
    page = PAGE.read_text()
    front, rest = page.split(BEGIN)
    new = f"{front}{BEGIN}{listed()}{END}{rest.split(END, 1)[1]}"
    if sys.argv[1:] == ["--check"]:
        if new != page:
            sys.exit("tables.py: docs/PROOFS.md counts other wrong bodies than the sources have; docs/tables.py writes them")
    elif sys.argv[1:]:
        sys.exit(__doc__)
    else:
        PAGE.write_text(new)


main()
