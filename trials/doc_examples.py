#!/usr/bin/env python3
"""Runs the commands of the documents and compares what a terminal shows with what stands there.

  doc_examples.py [--draw] [FILE..]

Each file has a clean copy of the repository to itself, at whose top its code blocks are run in order, as they stand:

  text   the lines that begin with `$ `, each of which is to show the lines below it, up to the next one or the end of the block
  sh     the whole block, which is to end with status 0; it isn't run where `by hand` stands behind the word sh
  pycon  lines of Python, which are to show what doctest would have them show
  .nf    a block of a man page, taken as text

The files are the pages of the top and of docs/, examples/ and recipes/, where none is named. Where a page shows a picture NAME.png and its
commands made a file of that name, the two are to be the same, pixel by pixel; with --draw the one that was made takes the other's
place. The programs are those of HIGRA, HIGRA_BATCH and HIGRA_CONTOURS, else those of bin/, which are built first.

A command of a program that isn't there is passed over, and so is a page that needs Netpbm, GNU parallel or networkx where that isn't
installed; a line says so. The last line is `N passed, M failed`.
"""
import argparse
import collections
import glob
import os
import re
import shlex
import shutil
import subprocess
import sys
import tempfile

TOP = os.path.dirname(os.path.dirname(os.path.abspath(__file__)))
PROGRAMS = {'higra': 'HIGRA', 'higra_batch': 'HIGRA_BATCH', 'higra_contours': 'HIGRA_CONTOURS'}
PAGES = ['*.md', 'docs/*.md', 'docs/*.1', 'examples/*.md', 'recipes/*.md']
# What may be missing: the words of a command that needs it, and a command that shows whether it is there.
TOOLS = {'Netpbm': (r'pnm\w+|pam\w+|pictures\.py', 'pnmtopng -version'), 'GNU parallel': ('parallel', 'parallel --version'),
         'networkx': (r'networkx_edges\.py', 'python3 -c "import networkx"')}

# A command, and what it is to show, or None where it is only to end with status 0.
Example = collections.namedtuple('Example', 'command wanted')


def read_text(path):
    with open(path, encoding='utf-8') as file:
        return file.read()


def blocks_of(path):
    """The code blocks of a document: the words of each one's first line, and its lines."""
    text = read_text(path)
    if path.endswith('.1'):
        text = text.replace('\\-', '-').replace('\\e', '\\')
        return [('text', lines) for lines in re.findall(r'^\.nf\n(.*?)^\.fi$', text, re.MULTILINE | re.DOTALL)]
    return re.findall(r'^```(.*)\n((?:.*\n)*?)```$', text, re.MULTILINE)


def examples_of(path):
    """The commands of a document, in order."""
    for words, lines in blocks_of(path):
        if words == 'sh':
            yield Example(lines, None)
        elif words == 'pycon':
            yield Example(f"PYTHONPATH=recipes python3 -m doctest /dev/stdin << 'END'\n{lines}END", None)
        elif words == 'text':
            for example in re.split(r'^\$ ', lines, flags=re.MULTILINE)[1:]:
                command, _, wanted = example.partition('\n')
                yield Example(command, wanted)


def pictures_of(path):
    """The pictures that a document shows."""
    shown = re.findall(r'!\[[^\]]*\]\(([^)]+\.png)\)', read_text(path))
    return [os.path.join(os.path.dirname(path), name) for name in shown]


def build(program, words):
    """Runs a program once, so that one that isn't built is built here, where it says how far it is, or ends the trial."""
    if subprocess.run([program, *words], input=b'graph 1 0', stdout=subprocess.DEVNULL, check=False).returncode:
        sys.exit(f'doc_examples.py: {program} answers nothing')


def built_programs():
    """The programs that are there, by their names."""
    found = {name: os.path.abspath(os.environ.get(variable) or f'{TOP}/bin/{name}') for name, variable in PROGRAMS.items()}
    found = {name: program for name, program in found.items() if os.path.exists(program)}
    for name, program in found.items():
        build(program, ['--make', '1'] if name == 'higra_contours' else ['tree'])
    return found


def copy_to(folder, programs):
    """Copies what git knows of the repository, but for the crates, in whose place the built programs stand in bin/."""
    names = subprocess.run(['git', 'ls-files', '-z', ':!crates'], cwd=TOP, stdout=subprocess.PIPE, text=True, check=True).stdout
    for name in filter(None, names.split('\0')):
        os.makedirs(os.path.dirname(f'{folder}/{name}'), exist_ok=True)
        shutil.copy(f'{TOP}/{name}', f'{folder}/{name}')
    for name, program in programs.items():
        with open(f'{folder}/bin/{name}', 'w', encoding='utf-8') as file:
            file.write(f'#!/bin/sh\nexec {shlex.quote(program)} "$@"\n')
        os.chmod(f'{folder}/bin/{name}', 0o755)


def environment(folder):
    """The environment of a command: the programs of a copy of the repository, and this very Python, come first."""
    return os.environ | {'PATH': f'{folder}/bin:{os.path.dirname(sys.executable)}:{os.environ["PATH"]}', 'HOME': folder}


def fault_of(example, folder):
    """What is wrong with a command that is run in a copy of the repository, or nothing."""
    words = ['-c'] if example.wanted is not None else ['-e', '-o', 'pipefail', '-c']
    ran = subprocess.run(['bash', *words, example.command], cwd=folder, env=environment(folder), stdin=subprocess.DEVNULL,
                         stdout=subprocess.PIPE, stderr=subprocess.STDOUT, check=False)
    shown = ran.stdout.decode(errors='replace')
    if example.wanted is None:
        return f'ends with status {ran.returncode} and shows\n{shown}' if ran.returncode else ''
    return f'is to show\n{example.wanted}but shows\n{shown}' if shown != example.wanted else ''


def pixels(path):
    return subprocess.run(['pngtopnm', '-quiet', path], stdout=subprocess.PIPE, check=True).stdout


def works(command):
    return subprocess.run(['bash', '-c', command], env=environment(TOP), capture_output=True, check=False).returncode == 0


def missing_in(examples):
    """What the commands of a page need and isn't there."""
    return [tool for tool, (words, probe) in TOOLS.items()
            if any(re.search(rf'\b({words})\b', it.command) for it in examples) and not works(probe)]


def faults_of_commands(path, folder, programs):
    """For each command of a page what is wrong with it, or nothing."""
    absent = PROGRAMS.keys() - programs.keys()
    for example in examples_of(path):
        named = [name for name in absent if re.search(rf'\b{name}\b', example.command)]
        if named:
            print(f'passed over: {os.path.relpath(path, TOP)}: {example.command.strip()}: there is no {named[0]}')
        else:
            yield example.command, fault_of(example, folder)


def faults_of_pictures(path, folder, draw):
    """For each picture of a page that its commands made what is wrong with it, or nothing."""
    for picture in pictures_of(path):
        made = f'{folder}/{os.path.basename(picture)}'
        if draw and os.path.exists(made):
            shutil.copy(made, picture)
        elif os.path.exists(made):
            yield picture, '' if pixels(made) == pixels(picture) else 'is another picture than the commands make'


def faults_of(path, programs, draw):
    """Runs a page in a copy of the repository."""
    missing = missing_in(list(examples_of(path)))
    if missing:
        print(f'passed over: {os.path.relpath(path, TOP)}: there is no {missing[0]}')
        return
    with tempfile.TemporaryDirectory() as folder:
        copy_to(folder, programs)
        yield from faults_of_commands(path, folder, programs)
        yield from faults_of_pictures(path, folder, draw)


def main():
    asked = argparse.ArgumentParser(description=__doc__, formatter_class=argparse.RawDescriptionHelpFormatter)
    asked.add_argument('--draw', action='store_true')
    asked.add_argument('files', nargs='*')
    given = asked.parse_args()
    files = given.files or [path for pages in PAGES for path in sorted(glob.glob(f'{TOP}/{pages}'))]
    programs = built_programs()
    counts = collections.Counter()
    for path in files:
        for name, fault in faults_of(path, programs, given.draw):
            counts['failed' if fault else 'passed'] += 1
            if fault:
                print(f'{os.path.relpath(path, TOP)}: {name.strip()}\n{fault.strip()}')
    print(f'{counts["passed"]} passed, {counts["failed"]} failed')
    sys.exit(1 if counts['failed'] else 0)


main()
