"""The public calls of each crate with their clauses, and the files of specs/ with the contracts that cite them, as tables; and the
names of the code in the documents."""
import os
import re

import sources as src

RULE = '|---' * 9


def table(heads, rows):
    lines = ['| ' + ' | '.join(heads) + ' |', RULE[:4 * len(heads)] + '|']
    return '\n'.join(lines + ['| ' + ' | '.join(cell.replace('|', '\\|') for cell in row) + ' |' for row in rows])


def sentence(lines):
    """The first sentence of a doc comment."""
    text = re.sub(r'\[(`[^`]*`)\]', r'\1', ' '.join(lines).split('  ')[0])
    return (re.match(r"(.*?[.:])(?= +[A-Z`]|$)", text) or [text])[0].rstrip('.:').strip()


def ticks(names):
    return ', '.join('`%s`' % n for n in names)


# ---- the surface of a crate

class Surface:
    """The public calls and types of a crate, with the names under which they are reached."""

    def __init__(self, reader, crate):
        self.crate, self.items = crate, reader.source(crate)
        lib = self.items.get('lib', [])
        modules = {i.name for i in lib if i.kind == 'mod' and i.public}
        passed = {}
        for line in (i for i in lib if i.kind == 'use' and i.public):
            for name, path in src.imports(' '.join(' '.join(line.lines).replace(' }', '}').replace('{ ', '{').replace(',}', '}').split())).items():
                passed[name] = path
        self.others = {n: p for n, p in passed.items() if p.split('.')[0] not in self.items}
        self.types, self.calls, self.impls, self.models = {}, [], [], []
        everywhere = [(m, i) for m, items in self.items.items() for i in items]
        for module, item in everywhere:
            if item.kind in ('struct', 'enum', 'trait', 'type') and not item.owner and item.public:
                if item.name in passed or module in modules | {'lib'}:
                    self.types[item.name] = '' if item.name in passed or module == 'lib' else module + '::'
        for module, item in everywhere:
            if item.kind == 'fn' and item.public and not item.owner and (item.name in passed or module in modules | {'lib'}):
                self.calls.append(('' if item.name in passed or module == 'lib' else module + '::', item))
            elif item.kind == 'fn' and item.owner in self.types and (item.public or item.trait == 'trait'):
                self.calls.append((self.types[item.owner] + item.owner + '::', item))
            elif item.kind == 'impl' and item.trait == 'Model' and item.name in self.types:
                self.models.append(item)
            elif item.kind == 'impl' and item.trait and item.name in self.types:
                clauses = [n for i in self.items[module] if i.owner == item.name and i.trait == item.trait for _, n, _ in i.clauses]
                if item.ghosts or clauses:
                    self.impls.append((item, item.ghosts + [c for c in clauses if c]))


def contracts(reader):
    parts = []
    for crate in reader.order:
        surface = Surface(reader, crate)
        if 'lib' not in surface.items or crate.startswith('tests_'):
            continue
        part = ['### `%s`' % crate, head_of(crate, 'lib')]
        rows = []
        for path, item in surface.calls:
            signature = re.sub(r"^(?:pub |final |const |extern .C. )*fn |(?<=[(\s])mut (?=\w+:)|<'\w+>(?=\()|'\w+ (?=\w)", '', item.signature).replace('alloc: Global', 'alloc')
            names = {kind: [n for k, n, _ in item.clauses if k == kind] for kind in ('requires', 'ensures')}
            shown = [ticks(n for n in names[k] if n) or 'one clause' * bool(names[k]) for k in ('requires', 'ensures')]
            rows.append(['`%s%s`' % (path, signature), sentence(item.doc), *shown, place(item)])
        for item, names in surface.impls:
            trait = re.sub(r'^\w+::', '', item.trait)
            rows.append(['`%s` of `%s`' % (trait, item.name), '', '', ticks(names), place(item)])
        if rows:
            part.append(table(['Call', 'Does', 'Requires', 'Ensures', 'At'], rows))
        values = [(m.name, re.search(r'ghost Value =\s*\{(.*?)\};', m.text(), re.S)) for m in surface.models]
        models = ['`%s` as `%s`' % (name, ' '.join(value.group(1).split())) for name, value in values if value]
        if models:
            part.append('Contracts see ' + ', '.join(models) + '.')
        if surface.others:
            owners = sorted({p.split('.')[0] for p in surface.others.values()}, key=reader.order.index)
            part.append('Passes on: ' + '; '.join('from `%s` %s' % (o, ticks(n for n, p in surface.others.items() if p.split('.')[0] == o))
                                                  for o in owners) + '.')
        parts.append('\n\n'.join(part))
    return '\n\n'.join(parts)


def place(item):
    return '%s:%d' % (os.path.basename(item.path), item.first)


def head_of(crate, file):
    lines = [l[3:].strip() for l in src.read('crates/%s/src/%s.rt' % (crate, file)).splitlines() if l.startswith('//!')]
    return ' '.join(lines).split('  ')[0]


# ---- definitions

def citations(reader):
    """From each file of specs/ to the public contracts that cite it, and all blocks that public contracts reach."""
    cited, roots = {}, []
    for crate in reader.order:
        surface = Surface(reader, crate)
        found = [('`%s`' % (p + i.name), i, '\n'.join(t for _, _, t in i.clauses)) for p, i in surface.calls]
        found += [('`%s` of `%s`' % (re.sub(r'^\w+::', '', i.trait), i.name), i, None) for i, _ in surface.impls]
        found += [('model of `%s`' % i.name, i, None) for i in surface.models]
        if crate.startswith('tests_') or crate in ('rows',):
            continue
        for name, item, text in found:
            for block in reader.reached_by(item, text):
                roots.append(block)
                names = cited.setdefault(block.path, [])
                names.append(name) if name not in names else None
    seen, todo, users = set(), roots, {}
    while todo:
        block = todo.pop()
        if id(block) not in seen:
            seen.add(id(block))
            for other in reader.followed(block):
                if other.path != block.path:
                    users.setdefault(other.path, {})[block.path] = True
                todo.append(other)
    return cited, users, seen


def some(names, most=5):
    return ', '.join(names[:most]) + (' and %d more' % (len(names) - most) if len(names) > most else '')


def definitions(reader):
    cited, users, seen = citations(reader)
    parts = []
    for crate in reader.order:
        files = [reader.specs[crate, f[:-5]] for f in src.listed('crates/%s/specs' % crate, '.antt') if f != 'Lib.antt']
        if files:
            rows = []
            for file in sorted(files, key=lambda f: not any(id(b) in seen for b in f.blocks)):
                what, _, source = file.head.partition('Source:')
                by = ['%s' % os.path.splitext(os.path.basename(p))[0] + ' of `%s`' % p.split('/')[1] for p in sorted(users.get(file.path, {}))
                      if p.endswith('.antt')]
                who = some(cited.get(file.path, [])) or some(by) if any(id(b) in seen for b in file.blocks) else '*private*'
                rows.append(['`%s`' % file.file, str(sum(b.counted() for b in file.blocks)), what.strip(), source.strip().rstrip('.'), who])
            parts.append('### `%s`\n\n%s' % (crate, table(['File', 'Lines', 'Defines', 'Source', 'Cited by'], rows)))
    return '\n\n'.join(parts)


# ---- names in documents

def check_names(reader):
    """Names of the code in the documents: `crate::..`, `module::..` and `Type::member`, of what is declared here. EMBEDDING.md has names
    of bindings, and is left out."""
    known, members, used = {}, {}, {'std', 'core'}
    for crate, _, uses in src.crates():
        used |= set(uses)
        for module, items in reader.source(crate).items():
            words = {module} | {i.name for i in items} | {n for i in items if i.public and i.kind == 'use' for n in i.uses}
            words |= {w for i in items if i.kind == 'enum' for w in re.findall(r'^ {4}(\w+)', i.text(), re.M)}
            known.setdefault(crate, set()).update(words)
            members.setdefault(module, set()).update(words)
            for item in items:
                if item.kind in ('struct', 'enum', 'trait') and not item.owner:
                    own = re.findall(r'^ {4}(?:pub )?(\w+)', item.text(), re.M)
                    members.setdefault(item.name, {'clone', 'default', 'fmt', 'cmp', 'eq'}).update(own)
                elif item.owner:
                    members.setdefault(item.owner, set()).add(item.name)
    everything = set().union(*members.values())
    wrong = []
    pages = ['docs/' + f for f in src.listed('docs', '.md') if f != 'EMBEDDING.md']
    for path in ['README.md', 'CONTRIBUTING.md', 'examples/README.md'] + pages:
        text = src.read(path) if os.path.exists(os.path.join(src.ROOT, path)) else ''
        for number, line in enumerate(text.splitlines(), 1):
            for name in re.findall(r'(?<![\w:/.])(\w+(?:::\w+)+)', line):
                first, *rest = name.split('::')
                there = all(w in (known[first] | everything) for w in rest) and (
                    rest[0] in known[first] | members.get(first, set())) if first in known else (
                    rest[0] in members[first] if first in members else first in used or first[0].isupper())
                if not there:
                    wrong.append('%s:%d: no %s' % (path, number, name))
    return wrong
