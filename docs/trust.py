#!/usr/bin/env python3
"""What one has to read to know what a clause says.

For each clause of a public call this walks the definitions that the clause names, those that they
name, and so on, through the files crates/*/specs, and counts them and their lines. Definitions of std
and of the kit are not followed. Run it at the top of the repository:

    docs/trust.py            prints the tables
    docs/trust.py --list     prints each definition too, with its file and line
    docs/trust.py --write    puts the tables into docs/TRUST.md
"""
import glob
import os
import re
import sys

CALLS = [('porcupine_server', 'porcupine'), ('drive_tape', 'drive')]
# The records that have each promise as a field, and the fields that give its sessions and its records their meaning: a promise is
# counted together with these. Of the sessions that take mail and of those that read it, it is counted with what it speaks of.
KEPT = {
    'KeepsPromises': 'Rattle.session_model.specs.Kept',
    'KeepsToClients': 'Rattle.session_model.specs.Kept',
    'KeepsSettled': 'Rattle.fresh_sessions.specs.Kept',
}
SHOWN = [('KeepsPromises', 'holds'), ('KeepsToClients', 'shown')]
TAKE, READ, LOGGED = ('KeepsToClients', 'take_mail'), ('KeepsToClients', 'read_mail'), ('KeepsPromises', 'logged')
PROMISES = [
    ('Promises on mail that is taken in, fields of `KeepsToClients`', 'KeepsToClients', SHOWN + [TAKE], ['stored_stands']),
    ('Promises on mail that is read, fields of `KeepsToClients`', 'KeepsToClients', SHOWN + [READ], ['deleted_by_quit', 'shown_as_filed', 'shown_once', 'shown_are_own', 'one_content']),
    ('Promises of a settled epoch, fields of `KeepsSettled`', 'KeepsSettled', SHOWN + [READ], ['fresh_lists_all', 'settled_agrees']),
    ('Promises on the book, fields of `KeepsPromises`', 'KeepsPromises', SHOWN + [TAKE, READ, LOGGED],
     ['acknowledged_as_told', 'acknowledged_stand', 'struck_as_marked', 'dropped_are_gone']),
]
OTHERS = {'holds', 'sessions', 'acks', 'unwritten', 'confirmers', 'clients', 'answered', 'logged', 'shown', 'take_mail', 'read_mail'}
BEGIN, END = '<!-- made by docs/trust.py -->', '<!-- end -->'
WORD = re.compile(r"[A-Za-z_][A-Za-z0-9_\-']*(?:\.[A-Za-z_][A-Za-z0-9_\-']*)*")
USE = re.compile(r'(?:ghost |pub )*use (Rattle\.[A-Za-z0-9_.]+?)(?:\.\{([^}]*)\})?(?: as (\w+))?;?\s*$')
DEFINITION = re.compile(r"^(?:(?:abbrev|unfoldable|pub|record|data) )+([A-Za-z_◌][^\s:({]*)")


def imports_of(lines):
    """The names and modules that `use` lines bring: a name to its module and its name there."""
    names, modules = {}, {}
    for line in lines:
        use = USE.match(line.strip())
        if not use:
            continue
        path, items, alias = use.groups()
        if items is None:
            modules[alias or path.split('.')[-1]] = path
            continue
        for item in items.split(','):
            name, _, other = item.strip().partition(' as ')
            names[other.strip() or name.strip()] = (path, name.strip())
    return names, modules


class Definitions:
    def __init__(self):
        self.found, self.imports, self.reexports = {}, {}, {}
        for path in sorted(glob.glob('crates/*/specs/*.antt')):
            crate, name = path.split('/')[1], os.path.basename(path)[:-5]
            if name != 'Lib':
                self.read(path, f'Rattle.{crate}.specs.{name}')

    def read(self, path, module):
        lines = open(path, encoding='utf-8').read().split('\n')
        self.imports[module] = imports_of(lines)
        starts = [(at, DEFINITION.match(line).group(1)) for at, line in enumerate(lines)
                  if DEFINITION.match(line) and not line.startswith(('pub mod', 'pub use'))]
        for (at, name), (end, _) in zip(starts, starts[1:] + [(len(lines), '')]):
            while end > at + 1 and (not lines[end - 1].strip() or lines[end - 1].startswith('--')):
                end -= 1
            self.found[(module, name)] = (path, at + 1, lines[at:end])

    def lookup(self, module, name):
        """The definition of this name in this module: its own, or that of the type whose variant it is."""
        if (module, name) in self.found:
            return (module, name)
        names, _ = self.imports.get(module, ({}, {}))
        if name in names and names[name] != (module, name):
            return self.lookup(*names[name])
        outer, _, kind = module.rpartition('.')
        return (outer, kind) if (outer, kind) in self.found else None

    def resolve(self, word, names, modules, own=None):
        head, _, rest = word.partition('.')
        if own and (own, head) in self.found:
            return (own, head)
        if head in names:
            return self.lookup(*names[head])
        if head in modules and rest:
            return self.lookup(modules[head], rest.split('.')[0])
        return None

    def closure(self, roots):
        seen, left = set(), list(roots)
        while left:
            key = left.pop()
            if key in seen:
                continue
            seen.add(key)
            module = key[0]
            names, modules = self.imports[module]
            for word in set(WORD.findall('\n'.join(self.found[key][2]))):
                other = self.resolve(word, names, modules, module)
                if other and other not in seen:
                    left.append(other)
        return seen


def braces(text, at):
    """The text of the braces that open at this place."""
    depth = 0
    for end in range(at, len(text)):
        depth += {'{': 1, '}': -1}.get(text[end], 0)
        if depth == 0:
            return text[at + 1:end]
    return text[at + 1:]


def contract_of(crate, call):
    """Names and texts of the clauses of a public function, and what its file imports."""
    for path in sorted(glob.glob(f'crates/{crate}/src/*.rt')):
        text = open(path, encoding='utf-8').read()
        start = re.search(rf'pub fn {call}\b', text)
        if not start:
            continue
        head = text[start.start():text.index('\n{\n', start.start())] if '\n{\n' in text[start.start():] else text[start.start():]
        clauses = [(clause.group(1) or call, braces(head, clause.end() - 1))
                   for clause in re.finditer(r'ensures\*?\s*(\w+)?\s*\{', head)]
        return clauses, imports_of(text.split('\n'))
    return [], ({}, {})


def fields_of(definitions, key):
    """Names and texts of the fields of a record."""
    fields = []
    for line in definitions.found[key][2]:
        field = re.match(r'  pub (\w+) : (.*)', line)
        if field:
            fields.append(field.groups())
        elif fields and line.startswith('      '):
            fields[-1] = (fields[-1][0], fields[-1][1] + '\n' + line)
    return fields


def roots_of(definitions, module, text):
    """The definitions that a text of a module names."""
    names, modules = definitions.imports[module]
    return {definitions.resolve(word, names, modules, module) for word in WORD.findall(text)} - {None}


def rows(definitions, parts, listed):
    """A row for each named list of texts, each of a module: the definitions that they reach."""
    out = ['| Clause | Definitions | Lines | Files | Crates |\n|---|---:|---:|---:|---|']
    for name, texts in parts:
        roots = set().union(*[roots_of(definitions, module, text) for module, text in texts])
        seen = definitions.closure(roots)
        size = sum(len(definitions.found[key][2]) for key in seen)
        files = sorted({definitions.found[key][0] for key in seen})
        crates = sorted({path.split('/')[1] for path in files})
        out.append(f'| `{name}` | {len(seen)} | {size:,} | {len(files)} | {", ".join(f"`{one}`" for one in crates) or "none"} |')
        if listed:
            places = sorted((definitions.found[key][0], definitions.found[key][1], key[1]) for key in seen)
            out.extend(f'    {path}:{line} {one}' for path, line, one in places)
    return out + ['']


def tables(definitions, listed):
    out = []
    for crate, call in CALLS:
        clauses, imports = contract_of(crate, call)
        module = f'{crate}, {call}'
        definitions.imports[module] = imports
        out.append(f'Clauses of `{call}`, in crate `{crate}`:\n')
        out.extend(rows(definitions, [(name, [(module, text)]) for name, text in clauses], listed))
    listed_here = {name for _, _, _, promises in PROMISES for name in promises}
    for record in sorted(KEPT):
        for name, _ in fields_of(definitions, (KEPT[record], record)):
            assert name in listed_here | OTHERS, f'{record}.{name} is in no table'
    for title, record, meaning, promises in PROMISES:
        out.append(f'{title}, each together with what gives its sessions and records their meaning ({", ".join(f"`{field}`" for _, field in meaning)}):\n')
        parts = [[(KEPT[record], text)] + [(KEPT[kept], dict(fields_of(definitions, (KEPT[kept], kept)))[field]) for kept, field in meaning]
                 for name, text in fields_of(definitions, (KEPT[record], record)) if name in promises]
        names = [name for name, _ in fields_of(definitions, (KEPT[record], record)) if name in promises]
        out.extend(rows(definitions, list(zip(names, parts)), listed))
    return '\n'.join(out)


def main():
    text = tables(Definitions(), '--list' in sys.argv)
    if '--write' not in sys.argv:
        print(text)
        return
    page = open('docs/TRUST.md', encoding='utf-8').read()
    before, _, rest = page.partition(BEGIN)
    _, _, after = rest.partition(END)
    with open('docs/TRUST.md', 'w', encoding='utf-8') as file:
        file.write(f'{before}{BEGIN}\n\n{text}\n{END}{after}')


main()
