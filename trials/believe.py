"""What the clauses of `run` say, down to the toolchain's own words: every definition that they reach, with its file and lines.

    python3 trials/believe.py            compares docs/believe.md with what is reached
    python3 trials/believe.py --list     lists what is reached, file by file
    python3 trials/believe.py --write    writes the lines of each definition into docs/believe.md, and its counts

From the clauses of `run` it follows names through the `use` lines of crates/*/specs and crates/*/src. A type of the code that
contracts see as another value counts as what they see of it. It fails where the page names a definition that isn't reached,
leaves one out, gives other lines, clauses or counts, or where they have more than 1,500 lines without comments. Standard library
alone.
"""
import pathlib
import re
import sys

ROOT = pathlib.Path(__file__).resolve().parent.parent
CRATES = ROOT / 'crates'
PAGE = ROOT / 'docs' / 'believe.md'
START = ('higra_cli/src/running.rt', 'run')
MOST = 1500

USE = re.compile(r'(?:pub |ghost )*use (Rattle[\w.]*|[\w.]+?)(?:\.\{([^}]*)\})?(?: as (\w+))?;?\s*$')
ITEM = re.compile(r'(?:abbrev |unfoldable |pub )+(?:record |data )?(\S+)')
TYPE = re.compile(r'pub(?:\(crate\))? (?:struct|enum|trait) (\w+)')
CONSTRUCTORS = {'zero', 'suc', 'true', 'false'}


class Item:
    """A definition: its file, its first and last line, its text, and the names that its file brings into scope."""

    def __init__(self, file, name, first, lines, scope, text=None):
        self.file, self.name, self.first, self.lines, self.scope = file, name, first, lines, scope
        self.last = first + len(lines) - 1
        self.text = '\n'.join(lines) if text is None else text

    def __len__(self):
        return len(self.lines)


# The files.

class Scope:
    """What names mean in a file: places of definitions, which are pairs of a module and a name, and modules."""

    def __init__(self):
        self.names, self.modules = {}, {}

    def take(self, line):
        match = USE.match(line.strip())
        if not match:
            raise SystemExit(f'not read: {line}')
        module, listed, alias = match.groups()
        if listed is None:
            self.modules[alias or module.split('.')[-1]] = module
            return
        for entry in filter(None, (part.strip() for part in listed.split(','))):
            name, _, other = entry.partition(' as ')
            self.names[other or name] = (module, name)

    def under(self, above):
        self.names = {**above.names, **self.names}
        self.modules = {**above.modules, **self.modules}
        return self


def without_comments(text, mark):
    text = re.sub(r'"[^"]*"', '""', text)
    return '\n'.join(line.split(mark)[0] for line in text.split('\n'))


def spec_items(file):
    """The definitions of a file of specs/, each with the comment above it."""
    lines = (CRATES / file).read_text().split('\n')
    scope, items, block = Scope(), {}, []
    for number, line in enumerate(lines + [''], 1):
        if line.strip():
            block.append((number, line))
            continue
        for first, name, text in items_of_block(block, scope):
            items[name] = Item(file, name, first, text, scope)
        block = []
    module = 'Rattle.' + file.removesuffix('.antt').replace('/', '.')
    for name in items:
        scope.names[name] = (module, name)
    return items


def items_of_block(block, scope):
    """The definitions that stand together: first line, name and lines of each."""
    found, current, above = [], None, []
    for number, line in block:
        if line.startswith('--') or line.startswith('infix'):
            above.append((number, line))
        elif re.match(r'(pub )?use ', line):
            scope.take(line)
            above = []
        elif re.match(r'(abbrev|unfoldable|pub) ', line) and not line.startswith('pub mod'):
            current = (above + [(number, line)], ITEM.match(line).group(1))
            found.append(current)
            above = []
        elif current:
            current[0].extend(above + [(number, line)])
            above = []
    return [(rows[0][0], name, [line for _, line in rows]) for rows, name in found]


def rust_scope(lines):
    """What names mean in a file of src/: the ghost names, the types that its `use` lines bring in, and its own."""
    scope = Scope()
    for line in lines:
        if line.startswith('ghost use '):
            scope.take(line)
    for path, several, one in re.findall(r'^use ((?:\w+::)+)(?:\{([^}]*)\}|(\w+));', '\n'.join(lines), re.M):
        for name in (several or one).split(','):
            scope.names.setdefault(name.strip(), (path, name.strip()))
    for line in lines:
        if match := TYPE.match(line):
            scope.names[match.group(1)] = ('self::', match.group(1))
    return scope


def end_of(lines, start):
    """Where the item that begins at this line ends: with its braces, or where it has none with its semicolon."""
    end, depth = start, 0
    while True:
        depth += lines[end].count('{') - lines[end].count('}')
        if depth == 0 and re.search(r'[};]', lines[end]):
            return end + 1
        end += 1


def with_docs(lines, start):
    while start > 0 and re.match(r'\s*(///|#\[)', lines[start - 1]):
        start -= 1
    return start


def rust_items(file):
    """The types and traits of a file of src/. Of a type with a Model the definition is that Model, of which the Value is followed."""
    lines = (CRATES / file).read_text().split('\n')
    scope, items = rust_scope(lines), {}
    for at, line in enumerate(lines):
        if match := TYPE.match(line):
            start = with_docs(lines, at)
            items.setdefault(match.group(1), Item(file, match.group(1), start + 1, lines[start:end_of(lines, at)], scope))
        elif match := re.match(r'impl Model for (\w+) \{', line):
            items[match.group(1)] = model_item(file, match.group(1), at + 1, lines[at:end_of(lines, at)], scope)
    return items


def model_item(file, name, first, lines, above):
    """What contracts see of a type with a Model."""
    scope = Scope()
    for line in lines:
        if line.strip().startswith('ghost use '):
            scope.take(line)
    value = re.search(r'ghost Value = \{(.*)\};', '\n'.join(lines)).group(1)
    return Item(file, name, first, lines, scope.under(above), value)


class Files:
    def __init__(self):
        self.read = {}

    def items(self, file):
        if file not in self.read:
            self.read[file] = spec_items(file) if file.endswith('.antt') else rust_items(file)
        return self.read[file]


# What a name means.

def home_of(files, module, name, near):
    """The file and the name of a definition of this repository, or None for a word of the toolchain."""
    if '::' in module:
        return rust_home(files, module, name, near)
    parts = module.split('.')
    if parts[0] != 'Rattle' or not (CRATES / parts[1]).is_dir():
        return None
    if parts[3] == 'declared':
        path = [part for part in parts[4:] if part not in ('TheVariants', 'TheInside')]
        return declared_home(files, parts[1], path)
    return spec_home(files, '/'.join(parts[1:]) + '.antt', name)


def spec_home(files, file, name):
    """A definition of a file of specs/, or of another one from which that file exports it."""
    items = files.items(file)
    if name in items:
        return file, name
    for line in (CRATES / file).read_text().split('\n'):
        if line.startswith('pub use '):
            scope = Scope()
            scope.take(line)
            if name in scope.names:
                return home_of(files, *scope.names[name], file)
    raise SystemExit(f'no definition {name} in {file}')


def declared_home(files, crate, path):
    for file in (f'{crate}/src/{"/".join(path[:-1])}.rt', f'{crate}/src/lib.rt'):
        if (CRATES / file).is_file() and path[-1] in files.items(file):
            return file, path[-1]
    raise SystemExit(f'no type {path[-1]} in {crate}')


def rust_home(files, module, name, near):
    """A type by the path of a `use` line in src/: of this file, of this crate, or of another one that exports it."""
    parts = module.strip(':').split('::')
    if parts == ['self']:
        return near, name
    crate = near.split('/')[0] if parts[0] in ('super', 'crate') else parts[0]
    if not (CRATES / crate).is_dir():
        return None
    for file in sorted((CRATES / crate / 'src').rglob('*.rt')):
        place = file.relative_to(CRATES).as_posix()
        if re.search(r'pub(?:\(crate\))? (?:struct|enum|trait) ' + name + r'\b', file.read_text()):
            return place, name
    return None


def bound_in(text):
    """The variables of a definition: parameters, those of binders, and those that patterns name."""
    found = set()
    for names in re.findall(r'λ ([^.]*)\.', text) + re.findall(r'[({]([^(){}:=]+) : ', text):
        found.update(re.split(r'[\s(),]+', names))
    found.update(re.findall(r'(\S+) ←', text))
    for line in text.split('\n'):
        if re.match(r"[^\s]", line) and not re.match(r'(abbrev|unfoldable|pub|infix|record)', line) and ' = ' in line:
            words = re.split(r'[\s(){}]+', line.split(' = ')[0])
            found.update(word for word in words[1:] if re.match(r"[a-zα-ω][\w']*$", word))
    return found - CONSTRUCTORS


def names_in(item):
    """The names that a definition uses, as pairs of a module alias, if there is one, and a name."""
    rust = item.file.endswith('.rt')
    text = without_comments(item.text, '//' if rust else '--')
    text = re.sub(r'([{;]\s*|^\s+)([\w\']+) = ', r'\1', text, flags=re.M)
    text = re.sub(r'^(\s+)pub (\w+) : ', r'\1', text, flags=re.M)
    if rust:
        text = re.sub(r'^(    )\w+(?=[,(])', r'\1', text, flags=re.M)
    bound = set() if rust else bound_in(text)
    for match in re.finditer(r"([^\s(){}\[\],;.\"]+)((?:\.[^\s(){}\[\],;.\"]+)*)", text):
        word, fields = match.group(1), match.group(2).split('.')[1:]
        if match.start() and text[match.start() - 1] == '.':
            continue
        if word in item.scope.modules and fields:
            yield item.scope.modules[word], fields[0]
        elif word in item.scope.names and word not in bound:
            yield item.scope.names[word]
    tokens = set(re.split(r"[\s(){}\[\],;]+", text))
    for name, place in item.scope.names.items():
        if '◌' in name or name == '[]':
            parts = [part for part in name.split('◌') if part]
            if all(part in tokens or part in text and not part.isalpha() for part in parts) or name == '◌>>=◌' and 'do' in tokens:
                yield place


# From the clauses of `run`.

def start_item():
    """The clauses of `run`, with the types of what they speak of."""
    file, name = START
    lines = (CRATES / file).read_text().split('\n')
    at = next(i for i, line in enumerate(lines) if re.match(rf'pub fn {name}\b', line))
    end = next(i for i in range(at, len(lines)) if lines[i] == '{')
    head = '\n'.join(lines[at:end])
    clauses = [line for line in lines[at:end] if re.match(r'\s+(requires|ensures)', line)]
    text = '\n'.join(re.sub(r'^\s+(requires|ensures) \w+', '', line) for line in clauses)
    signature = head.split('ensures')[0]
    types = [bound for letter, bound in re.findall(r'(\w+): (\w+)', signature) if re.search(rf'\b{letter}\.', text)]
    types += [kind for value, kind in re.findall(r'(\w+): &(?:mut )?(\w+)', signature) if re.search(rf'\b{value}\.', text)]
    types += re.findall(r'-> (\w+)', signature)
    first = with_docs(lines, at)
    return Item(file, name, first + 1, lines[first:end], rust_scope(lines), text + '\n' + ' '.join(types))


def reached(files):
    """The definitions of this repository that `run`'s clauses reach, in the order in which they are met, and the words of
    the toolchain that these use."""
    start = start_item()
    found, words, waiting = {(start.file, start.name): start}, set(), [start]
    while waiting:
        item = waiting.pop(0)
        for module, name in names_in(item):
            home = home_of(files, module, name, item.file)
            if home is None:
                words.add((module, name))
            elif home not in found:
                found[home] = files.items(home[0])[home[1]]
                waiting.append(found[home])
    return found, {word for word in words if word[0].startswith('Rattle.')}


# The page.

ROW = re.compile(r'^\| `([^`]+)` \| `([^`:]+):(\d+)-(\d+)` \|', re.M)


def lines_of(found):
    """How many lines the definitions have without their comments."""
    return sum(1 for item in found.values() for line in item.lines if line.strip() and not line.strip().startswith(('--', '//')))


CLAUSE = re.compile(r'^\| `(\w+)` \| [^`|][^|]* \|$', re.M)


def clauses(item):
    """The names of the clauses of a function."""
    return re.findall(r'^ +(?:requires|ensures) (\w+) ', '\n'.join(item.lines), re.M)


def counts(found, words):
    """The sentence of the page that counts."""
    lines, whole = lines_of(found), sum(len(item) for item in found.values())
    files = len({item.file for item in found.values()})
    return f'{len(found)} definitions of {lines:,} lines, {whole:,} with their comments, in {files} files; and {len(words)} words of the toolchain.'


def toolchain_rows(words):
    """The table of the toolchain's words, a row for each of its modules."""
    modules = {}
    for module, name in sorted(words):
        modules.setdefault(module, []).append('`' + name.replace('|', '\\|') + '`')
    return ''.join(f'| `{module}` | {", ".join(names)} |\n' for module, names in modules.items())


TOOLCHAIN = re.compile(r'^(?:\| `Rattle\.[\w.]+` \| .* \|\n)+', re.M)
COUNT = re.compile(r'^\d+ definitions of [\d,]+ lines.*$', re.M)


def faults_of(page, found, words):
    """What is wrong with the page."""
    named = {}
    for name, file, first, last in ROW.findall(page):
        if (file, name) in named:
            yield f'{name} of {file} stands twice'
        named[file, name] = (int(first), int(last))
    for key in found.keys() - named.keys():
        yield f'{key[1]} of {key[0]} is left out'
    for key in named.keys() - found.keys():
        yield f"{key[1]} of {key[0]} isn't reached"
    for key in named.keys() & found.keys():
        if named[key] != (found[key].first, found[key].last):
            yield f'{key[1]} of {key[0]} stands in lines {found[key].first}-{found[key].last}'
    if CLAUSE.findall(page) != clauses(found[START]):
        yield "the clauses of `run` aren't those of its table, in their order"
    if COUNT.findall(page) != [counts(found, words)]:
        yield 'the counts are: ' + counts(found, words)
    if TOOLCHAIN.findall(page) != [toolchain_rows(words)]:
        yield "the words of the toolchain aren't those that are reached"
    if lines_of(found) > MOST:
        yield f'more than {MOST:,} lines'


def rewritten(page, found, words):
    """The page with the lines of each definition and the counts as they are."""
    def row(match):
        item = found.get((match.group(2), match.group(1)))
        return f'| `{item.name}` | `{item.file}:{item.first}-{item.last}` |' if item else match.group(0)
    page = TOOLCHAIN.sub(lambda _: toolchain_rows(words), page)
    return COUNT.sub(lambda _: counts(found, words), ROW.sub(row, page))


def main(words):
    found, toolchain = reached(Files())
    if words == ['--list']:
        for item in sorted(found.values(), key=lambda item: (item.file, item.first)):
            print(f'{item.file}:{item.first}-{item.last} {item.name}')
        for module, name in sorted(toolchain):
            print(f'{module} {name}')
        print(counts(found, toolchain))
        return 0
    if words == ['--write']:
        PAGE.write_text(rewritten(PAGE.read_text(), found, toolchain))
    faults = list(faults_of(PAGE.read_text(), found, toolchain))
    print('\n'.join(faults) or counts(found, toolchain))
    return 1 if faults else 0


if __name__ == '__main__':
    sys.exit(main(sys.argv[1:]))
