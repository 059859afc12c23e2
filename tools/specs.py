"""The definitions of crates/*/specs, for tools/names and tools/claim."""
from __future__ import annotations

import glob
import os
import re

HEAD = re.compile(r'(?:(?:abbrev|unfoldable) )?(?:pub )?(?:data |record )?([^\W\d][\w-]*)(?=[ :]|$)')
OPENS = re.compile(r'(abbrev|unfoldable|pub|data|record)\b')
IMPORT = re.compile(r'(?:(?:(?:abbrev|unfoldable) )?pub )?use (?:Rattle\.)?([\w.]+?)(?:\.\{(.*)\})?(?: as (\S+))?\s*$')
LIBRARIES = ('std.', 'lib.')


class Definition:
    """One definition: its crate, file, name, line number, comment and text."""

    def __init__(self, crate, module, name, number, comment):
        self.crate, self.module, self.name, self.number, self.comment = crate, module, name, number, comment
        self.lines, self.shared = [], ''

    def path(self):
        return 'crates/%s/specs/%s.antt' % (self.crate, self.module)

    def sentence(self):
        """Returns the first sentence of the comment, on one line."""
        text = ' '.join(self.comment)
        end = re.search(r'[.;] |\.$', text)
        return text[:end.start()] if end else text


class Module:
    """One file of specs/: its comment, what it imports, and its definitions in order."""

    def __init__(self):
        self.comment, self.imports, self.definitions, self.fields = [], {}, {}, set()
        self.library: dict[str, str] = {}  # the words of the kit's library that it uses, each with its module


def read_import(module, path, items, alias):
    """Adds the names that one `use` line brings into a module."""
    if path.startswith(LIBRARIES):
        for item in re.split(r',\s*', items.strip(' ,')) if items else [path.split('.')[-1]]:
            module.library[alias or item.split(' as ')[-1].strip()] = path.replace('.', '/')
        return
    target = path.replace('.', '/')
    if items is None:
        module.imports[alias or path.split('.')[-1]] = (target, None)
        return
    for item in re.split(r',\s*', items.strip(' ,')):
        parts = item.split(' as ')
        module.imports[parts[-1].strip()] = (target, parts[0].strip())


def use_lines(text: str) -> str:
    """Returns the text of a file with each `use` on one line. The other lines keep their numbers."""
    return re.sub(r'^(?:(?:(?:abbrev|unfoldable) )?pub )?use [^;\n]*\{\n[^}]*\}', lambda found: ' '.join(found.group().split()) + '\n' * found.group().count('\n'),
                  text, flags=re.M)


def read_module(path, crate, file):
    """Reads one file of specs/."""
    module, comment, current, shared, depth = Module(), [], None, '', 2
    for number, line in enumerate(use_lines(open(path, encoding='utf-8').read()).split('\n'), 1):
        if line.lstrip().startswith('--'):
            comment.append(line.strip().lstrip('-').strip())
            continue
        if line.startswith('module ') or (shared and not shared.endswith('where')):
            current, shared = None, (shared + ' ' + line.strip()).strip()
            continue
        if line.strip() == 'mutual':
            current, depth = None, len(line) - len(line.lstrip()) + 2
            continue
        shared = shared if line.startswith(' ') or not line.strip() else ''
        depth = max(depth, 2) if line.startswith(' ' * depth) or not line.strip() else 2
        line = line[depth:] if shared and line.startswith('  ') else line
        found = IMPORT.match(line)
        if found:
            if not module.imports and not module.comment:
                module.comment = comment
            read_import(module, *found.groups())
            comment, current = [], None
            continue
        head = HEAD.match(line)
        if head and head.group(1) not in ('use', 'pub', 'mod') and (
                OPENS.match(line) or (not (current and head.group(1) == current.name) and ' : ' in line and not line.startswith(' '))):
            current = Definition(crate, file, head.group(1), number, comment)
            current.shared = shared
            module.definitions.setdefault(current.name, current)
        field = re.match(r'\s+(?:pub )?([^\W\d][\w-]*)(?: \([^)]*\))* :', line)
        if field:
            module.fields.add(field.group(1))
        if current and line.strip():
            current.lines.append(line)
        if line.strip():
            comment = []
    return module


def read_all(root):
    """Returns each file of specs/ by crate/specs/File."""
    modules = {}
    for path in sorted(glob.glob(root + '/crates/*/specs/**/*.antt', recursive=True)):
        crate, file = re.match(r'.*/crates/(\w+)/specs/(.*)\.antt$', path).groups()
        modules['%s/specs/%s' % (crate, file)] = read_module(path, crate, file)
    return modules


def sources(root, crate):
    """Returns each source file of a crate with its text."""
    paths = sorted(glob.glob('%s/crates/%s/src/**/*.rt' % (root, crate), recursive=True))
    return {os.path.relpath(path, root): open(path, encoding='utf-8').read() for path in paths}
