"""What the scripts of tools/ read of the repository: its crates, the definitions of specs/*.antt, the items of src/*.rt.

It reads lines and braces as `rt fmt` lays them out, and knows nothing of types. A name is found through the `use` lines of its file.
"""
import os
import re
import sys

sys.dont_write_bytecode = True
ROOT = os.path.dirname(os.path.dirname(os.path.abspath(__file__)))
WORD = r"[^\W\d][\w'-]*"


def read(path):
    with open(os.path.join(ROOT, path), encoding='utf-8') as file:
        return file.read()


def listed(folder, ending):
    path = os.path.join(ROOT, folder)
    return sorted(f for f in os.listdir(path) if f.endswith(ending)) if os.path.isdir(path) else []


def edit_folders(crate):
    """The folders of a crate's edits: those that the gate tries, and those beside it."""
    return ['crates/%s/must-fail' % crate, 'crates/%s/must-fail-by-hand' % crate]


def crates():
    """The crates of crates.txt: name, the heading above it (a `#` line), the libraries that it uses."""
    found, heading = [], ''
    for line in read('crates.txt').splitlines():
        if line.startswith('#'):
            heading = line.lstrip('# ')
        elif ':' in line:
            name, uses = line.partition('#')[0].split(':', 1)
            found.append((name.split()[0], heading, uses.split()))
    return found


class Block:
    """Some lines of a file: a definition of specs/, or an item of src/."""

    def __init__(self, path, kind, name, first, **more):
        self.path, self.kind, self.name, self.first = path, kind, name, first
        self.last, self.lines, self.doc = first, [], []
        self.public, self.owner, self.trait, self.uses = False, '', '', {}
        self.signature, self.clauses, self.ghosts = '', [], []
        self.__dict__.update(more)

    def text(self):
        return '\n'.join(self.lines)

    def counted(self):
        """Its lines without comments, blank lines, attributes and imports."""
        skipped = ('--', '//', '#[', 'ghost use', 'use ')
        return sum(1 for line in self.lines if line.strip() and not line.strip().startswith(skipped))


def imports(text):
    """From each name that `use` lines bring in to what it stands for: a dotted path, or one that ends in `.*` where it is a prefix."""
    found = {}
    for path, names, alias in re.findall(r"^\s*(?:pub )?(?:ghost )?use ((?:\w|::|\.)+?)(?:(?:\.|::)\{([^}]*)\})?(?: as (\w+))?;?$",
                                         text, re.M):
        path = path.replace('::', '.')
        if not names:
            found[alias or path.split('.')[-1]] = path + ('.*' if path.startswith('Rattle.') else '')
        for name in filter(None, (n.strip() for n in names.split(','))):
            real, _, other = name.partition(' as ')
            found[(other or real).split('::')[-1]] = path + '.' + real.replace('::', '.')
    return found


# ---- specs

ITEM = re.compile(r"^(?:(?:abbrev|unfoldable|record|data)\b(?: pub)?|pub (?:abbrev|record|data)|pub(?= \S+ :)) +(\S+)")
GROUP = re.compile(r"^(?:abbrev |unfoldable )?mutual$|^module ")
MEMBER = re.compile(r"^  (?=\S+ :|(?:pub )?(?:abbrev|unfoldable|data|record) |pub \S+ :)(?:(?:pub|abbrev|unfoldable|data|record) )*(\S+)")


class Specs:
    """A file of specs/: its head comment, its imports, and its definitions by name."""

    def __init__(self, crate, file):
        self.crate, self.file = crate, file
        self.path = 'crates/%s/specs/%s.antt' % (crate, file)
        text = read(self.path)
        lines = text.splitlines()
        head = []
        for line in lines:
            if not line.startswith('--'):
                break
            head.append(line.lstrip('- '))
        self.head = ' '.join(head)
        self.length = len(lines)
        self.uses = imports(text)
        self.blocks, self.names = [], {}
        block, inner = None, False
        for number, line in enumerate(lines, 1):
            start = (MEMBER if inner else ITEM).match(line)
            if line and not line.startswith(('  ', '--')):
                inner = bool(GROUP.match(line))
                start = None if inner else ITEM.match(line)
            if start:
                kind = 'data' if re.search(r'\bdata\b', start.group(0)) else 'record' if 'record' in start.group(0) else 'abbrev'
                block = Block(self.path, kind, start.group(1), number, public='pub ' in start.group(0), indent=2 * inner)
                self.blocks.append(block)
                self.names[block.name] = block
            elif line.startswith(('use ', 'pub use ', 'pub mod ', 'infix')) or GROUP.match(line):
                block = None
            if block:
                block.lines.append(line)
                block.last = number if line.strip() and not line.strip().startswith('--') else block.last
        for block in self.blocks:
            if block.kind == 'data':
                for name in re.findall(r"^ {%d}(?:pub )?(\S+)(?: :|$)" % (block.indent + 2), block.text(), re.M):
                    self.names.setdefault(name, block)


def specs():
    return {(crate, file[:-5]): Specs(crate, file[:-5])
            for crate, _, _ in crates() for file in listed('crates/%s/specs' % crate, '.antt')}


# ---- src

HEAD = re.compile(r"^(\s*)(pub(?:\([^)]*\))? )?(?:const |unsafe |final |extern .C. )*(fn|struct|enum|trait|type|const|static|impl|mod|use)\b[ <]*(.*)$")


CLAUSE = re.compile(r"\s*(requires|ensures)\*? *(%s)? *\{" % WORD)


def depth_of(line):
    line = re.sub(r'"(?:\\.|[^"\\])*"|b?\'(?:\\.|[^\'\\])\'|//.*', '', line)
    return sum(line.count(c) for c in '{([') - sum(line.count(c) for c in '})]')


def end_of(lines, at, indent):
    """The number past the last line of the item that begins at line `at`."""
    depth, in_clause, in_body = 0, False, False
    for number in range(at, len(lines)):
        line = lines[number].split(' //')[0]
        if in_body:
            if line.startswith(indent + '}'):
                return number + 1
            continue
        in_clause = in_clause or bool(CLAUSE.match(line))
        depth += depth_of(line)
        if depth == 0 and line.endswith(';') or not in_clause and depth == 0 and line.endswith('}'):
            return number + 1
        in_body = not in_clause and line.endswith('{') and depth == 1 and not line.startswith(indent + ' ')
        in_clause = in_clause and depth > 0
    return len(lines)


def contract_of(block):
    """Takes the signature, the clauses of the contract and the ghost members from the lines of an item."""
    lines, at = block.lines, 0
    signature, depth = [], 0
    while at < len(lines) and not CLAUSE.match(lines[at]) and not lines[at].strip().startswith('//'):
        depth += depth_of(lines[at].rstrip('{'))
        signature.append(lines[at].strip())
        at += 1
        if depth == 0 and signature[-1].endswith(('{', ';', '{}')):
            break
    block.signature = re.sub(r'\s+', ' ', re.sub(r'( ?\{\}?|;)$', '', ' '.join(signature))).strip()
    block.signature = block.signature.replace('( ', '(').replace(', )', ')')
    while at < len(lines):
        clause = CLAUSE.match(lines[at])
        if not clause:
            if lines[at].strip() and not lines[at].strip().startswith('//'):
                break
            at += 1
            continue
        first, depth = at, 0
        while at < len(lines):
            depth += depth_of(lines[at])
            at += 1
            if depth <= 0:
                break
        block.clauses.append((clause.group(1), clause.group(2) or '', '\n'.join(lines[first:at])))


def source(path):
    """The items of a file of src/: functions with their contracts, types, constants, and what stands in impls and traits."""
    lines = read(path).splitlines()
    whole = imports(re.sub(r'\{\s*([^{};]*?),?\s*\}(?=;)', lambda m: '{' + re.sub(r'\s+', ' ', m.group(1)) + '}', '\n'.join(lines)))
    found = []

    def walk(at, end, indent, owner, trait):
        doc = []
        while at < end:
            line = lines[at]
            head = HEAD.match(line)
            if line.strip().startswith('///'):
                doc.append(line.strip()[3:].strip())
            elif head and len(head.group(1)) == indent:
                kind, rest = head.group(3), head.group(4)
                last = end_of(lines, at, ' ' * indent)
                item = Block(path, kind, (re.match(r'\w+', rest) or [''])[0], at + 1, last=last, lines=lines[at:last], doc=doc,
                             public=bool(head.group(2) and '(' not in head.group(2)), owner=owner, trait=trait, uses=whole)
                doc = []
                if kind == 'impl':
                    text = re.sub(r'^<[^{]*?> (?=\w)', '', line.strip()[4:].strip())
                    text = re.sub(r'\s*(\{.*|where.*)$', '', text)
                    item.trait, _, item.name = text.rpartition(' for ')
                    item.name = re.sub(r"<.*|&'?\w* ?", '', item.name)
                    item.ghosts = re.findall(r'^ {4}ghost (\w+)(?: =|:)', item.text(), re.M)
                if kind == 'trait':
                    item.ghosts = re.findall(r'^ {4}ghost (\w+)(?: =|:)', item.text(), re.M)
                contract_of(item)
                found.append(item)
                if kind in ('impl', 'trait'):
                    walk(at + 1, last - 1, indent + 4, item.name, item.trait if kind == 'impl' else 'trait')
                at = last - 1
            elif not line.strip().startswith('#['):
                doc = [] if line.strip() else doc
            at += 1

    walk(0, len(lines), 0, '', '')
    return found


def sources(crate):
    return {file[:-3]: source('crates/%s/src/%s' % (crate, file)) for file in listed('crates/%s/src' % crate, '.rt')}
