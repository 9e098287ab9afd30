#!/usr/bin/env python3
"""Prints the crates that are proved anew if the named ones change: these, and all that use one of them.

    docs/above.py NAME..     a crate a line, in the order of crates.txt, and at the end how many of all these are;
                             status 1 if a name is no crate
"""
import pathlib
import sys

CRATES = pathlib.Path(__file__).resolve().parent.parent / "crates.txt"


def read_uses():
    """For each crate, in the order of crates.txt, those that it uses directly."""
    lines = [line.split(":", 1) for line in CRATES.read_text().splitlines() if ":" in line and line[0] != "#"]
    return {name.split()[0]: used.split() for name, used in lines}


def above(uses, named):
    """The named crates and all that stand on one of them."""
    found, more = set(), set(named)
    while more:
        found |= more
        more = {crate for crate, used in uses.items() if found & set(used)} - found
    return found


def main():
    uses, named = read_uses(), sys.argv[1:]
    if not named or named[0].startswith("-"):
        sys.exit(__doc__)
    for name in named:
        if name not in uses:
            sys.exit(f"above.py: {name} is no crate of crates.txt")
    found = above(uses, named)
    for crate in uses:
        if crate in found:
            print(crate)
    print(f"{len(found)} of {len(uses)}")


main()
