#!/usr/bin/env python3
"""Gives the worked inputs of worked_tests to the plain, slow program, and compares what it answers with what is wanted.

The rows stand in crates/worked_tests/src/tests.rt: words, an input, and the text that was worked out by hand. The gate
runs the program on them with several tilings; this runs plain.py, which shares no code with it. Each row that differs
is printed; the last line is `N passed, M failed`.
"""
import ast
import pathlib
import re
import sys

import plain

TESTS = pathlib.Path(__file__).resolve().parent.parent / 'crates/worked_tests/src/tests.rt'
TEXT = r'b"(?:[^"\\]|\\.)*"'
NAMED = re.compile(rf'^const (\w+): &\[u8\] =\s*({TEXT});', re.MULTILINE)
ROW = re.compile(rf'Row \{{\s*words: &(\[[^\]]*\]),\s*input: (\w+|{TEXT}),\s*want:\s*(\w+|{TEXT}),\s*\}}')


def rows():
    """Words, input and text of each worked row. A row that can't be read is an error, and none is passed over."""
    source = TESTS.read_text(encoding='utf-8')
    named = dict(NAMED.findall(source))
    found = ROW.findall(source)
    if not found or len(found) != len(re.findall(r'^    Row \{', source, re.MULTILINE)):
        sys.exit(f'worked.py: only {len(found)} rows of {TESTS.name} can be read')
    return [(ast.literal_eval(words), *(ast.literal_eval(named.get(text, text)) for text in texts)) for words, *texts in found]


def main():
    failed = 0
    worked = rows()
    for words, data, want in worked:
        got = plain.answer(words, data)
        if got != (0, want, b''):
            failed += 1
            print(f'{" ".join(words)}: DIFFERS\n  input {data!r}\n  want {want!r}\n  got {got!r}')
    print(f'{len(worked) - failed} passed, {failed} failed')
    sys.exit(1 if failed else 0)


main()
