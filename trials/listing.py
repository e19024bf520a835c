#!/usr/bin/env python3
"""Compares the listing of the README with the program that it is of.

    python3 trials/listing.py            fails where they differ
    python3 trials/listing.py --write    puts the program into the README
"""
import pathlib
import re
import sys

TOP = pathlib.Path(__file__).resolve().parent.parent
PAGE = TOP / 'README.md'
PROGRAM = TOP / 'crates/example_graph/src/main.rt'
LISTING = re.compile(r'(?<=^```rust\n).*?(?=^```$)', re.MULTILINE | re.DOTALL)


def main():
    page = PAGE.read_text(encoding='utf-8')
    program = PROGRAM.read_text(encoding='utf-8')
    listed = LISTING.sub(lambda _: program, page)
    if len(LISTING.findall(page)) != 1:
        sys.exit('listing.py: the README has no listing, or more than one')
    if '--write' in sys.argv[1:]:
        PAGE.write_text(listed, encoding='utf-8')
    elif listed != page:
        sys.exit('listing.py: the listing of the README is not crates/example_graph/src/main.rt')
    print('1 passed, 0 failed')


main()
