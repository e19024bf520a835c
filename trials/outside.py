#!/usr/bin/env python3
"""Runs higra and higra_batch where the outside fails: each read, each write, no room for all of the output, cut inputs; and
with words that ask for nothing.

  outside.py [--program CMD] [--batch CMD]

`strace`, which has to be installed, makes the N-th read or write of a file fail, for N from 1 until none does. A limit on
the size of files leaves room for the first k bytes of the output. Inputs are cut at each length, and a plain, slow program
says what the answer is. Each kind prints how many runs it took, and each wrong answer. The last line is
`N passed, M failed`.
"""
import argparse
import os
import resource
import shlex
import subprocess
import sys
import tempfile

import plain

TOP = os.path.dirname(os.path.dirname(os.path.abspath(__file__)))
READ_FAILED = 4, b'', b'higra: read failed\n'
USAGE = 2, b'', b'higra: usage\n'
FULL = '/dev/full'

PATH = b'graph 3 2\n0 1 5\n1 2 3\n'
LOOP = b'graph 2 1 # a loop\n0 0 3\n'
LISTS = [PATH, b'# roads\ngraph 2 1\r\n0 1 7 # north\r\n', b'graph2 3 1\n7 1 4096\n2 0 4294967295', b'\t graph 1 0', LOOP]
PICTURES = [b'P5\n2 2\n9\n\x00\x03\x03\x09', b'P5# a note\n3 1\n256\n\x01\x00\x00\x05\x00\x2c']
BATCHES = [b'\x0c'.join([PATH, LOOP, b'', PICTURES[0]]), b'graph 1 0 # \x0c graph 1 0\x0c']

# Words that ask for nothing.
UNASKED = ['', 'forest', 'tree tree', 'tree --tile 0', '--tile 8', 'tree --level 3', 'tree --form pgm --form pgm']

# A comment that takes several reads.
NOTE = b'#' * 30_000 + b'\n'


class Program:
    """A program, how it answers, and inputs."""

    def __init__(self, command, answer, inputs):
        self.command, self.answer, self.inputs = shlex.split(command), answer, inputs

    def wanted(self, given):
        return self.answer(['tree'], given)


def run(words, given, out=subprocess.PIPE, err=subprocess.PIPE, room=None):
    """Status, standard output and standard error. With a room, output goes to a file that has no more bytes than that."""
    def limit():
        resource.setrlimit(resource.RLIMIT_FSIZE, (room, room))
    # The signals stay as Python has them: a write beyond the limit fails, and ends nothing.
    ran = subprocess.run(words, stdin=given, stdout=out, stderr=err, restore_signals=False,
                         preexec_fn=limit if room is not None else None)
    return ran.returncode, ran.stdout or b'', ran.stderr or b''


def failing(call, path, number):
    """The words that run a program whose call of this number on a file fails."""
    options = ['-f', '-qq', '-o', os.devnull, '-P', path]
    return ['strace'] + options + ['-e', f'trace={call}', '-e', f'inject={call}:error=EIO:when={number}']


def kept_in(folder, name, data):
    path = os.path.join(folder, name)
    with open(path, 'wb') as file:
        file.write(data)
    return path


def content(path):
    with open(path, 'rb') as file:
        return file.read()


def reads(program, folder):
    """Each read fails in turn, also where nothing can be said of it."""
    given = NOTE + program.inputs[0]
    source, number, whole = kept_in(folder, 'input', given), 0, program.wanted(given)
    while True:
        number += 1
        words = failing('read', source, number) + program.command + ['tree']
        with open(source, 'rb') as given, open(source, 'rb') as again, open(FULL, 'wb') as full:
            told, untold = run(words, given), run(words, again, err=full)
        if told == whole:
            return
        yield told == READ_FAILED and untold == (4, b'', b''), f'read {number}', told


def writes(program, folder):
    """Each write fails in turn."""
    source, out, number = kept_in(folder, 'input', program.inputs[0]), os.path.join(folder, 'output'), 0
    report = program.wanted(program.inputs[0])[1]
    while True:
        number += 1
        with open(source, 'rb') as given, open(out, 'wb') as taken:
            ran = run(failing('write', out, number) + program.command + ['tree'], given, out=taken)
        if ran == (0, b'', b'') and content(out) == report:
            return
        yield ran == (5, b'', b'higra: write failed\n') and report.startswith(content(out)), f'write {number}', ran


def rooms(program, folder):
    """There is room for the first k bytes of a report, for each k."""
    source, out = kept_in(folder, 'input', program.inputs[0]), os.path.join(folder, 'output')
    report = program.wanted(program.inputs[0])[1]
    for room in range(len(report)):
        with open(source, 'rb') as given, open(out, 'wb') as taken:
            ran = run(program.command + ['tree'], given, out=taken, room=room)
        yield ran == (5, b'', b'higra: write failed\n') and content(out) == report[:room], f'room {room}', ran


def cuts(program, folder):
    """Each input, cut at each length."""
    for data in program.inputs:
        for length in range(len(data) + 1):
            with open(kept_in(folder, 'input', data[:length]), 'rb') as given:
                ran = run(program.command + ['tree'], given)
            yield ran == program.wanted(data[:length]), f'{data[:length]!r}', ran


def unasked(program, folder):
    """Words that ask for nothing: none of the input is read."""
    source = kept_in(folder, 'input', program.inputs[0])
    for words in UNASKED:
        with open(source, 'rb') as given:
            ran, place = run(program.command + words.split(), given), os.lseek(given.fileno(), 0, os.SEEK_CUR)
        yield ran == USAGE and place == 0, f'{words!r}', ran


def closed(program, folder):
    """Standard input is a folder, standard output takes nothing."""
    source = kept_in(folder, 'input', program.inputs[0])
    given = os.open(folder, os.O_RDONLY)
    ran = run(program.command + ['tree'], given)
    os.close(given)
    yield ran == READ_FAILED, 'a folder', ran
    with open(source, 'rb') as file, open(FULL, 'wb') as full:
        ran = run(program.command + ['tree'], file, out=full)
    yield ran == (5, b'', b'higra: write failed\n'), FULL, ran


def tried(program, kind, folder):
    """Whether all runs of a kind gave the right answer."""
    count, wrong = 0, 0
    for is_right, what, ran in kind(program, folder):
        count, wrong = count + 1, wrong + (not is_right)
        if not is_right:
            print(f'{kind.__name__}, {what}: {ran[0]}, {ran[1][:200]!r}, {ran[2]!r}', flush=True)
    print(f'{program.command[-1]}, {kind.__name__}: {count} runs, {wrong} wrong', flush=True)
    return count > 0 and wrong == 0


def main():
    words = argparse.ArgumentParser(description=__doc__, formatter_class=argparse.RawDescriptionHelpFormatter)
    words.add_argument('--program', default=os.path.join(TOP, 'bin', 'higra'))
    words.add_argument('--batch', default=os.path.join(TOP, 'bin', 'higra_batch'))
    given = words.parse_args()
    programs = [Program(given.program, plain.answer, LISTS + PICTURES), Program(given.batch, plain.batch_answer, BATCHES)]
    passed = []
    with tempfile.TemporaryDirectory(prefix='higra-outside-') as folder:
        for program in programs:
            passed += [tried(program, kind, folder) for kind in (reads, writes, rooms, cuts, unasked, closed)]
    print(f'{sum(passed)} passed, {len(passed) - sum(passed)} failed')
    sys.exit(0 if all(passed) else 1)


if __name__ == '__main__':
    main()
