"""What definitions see of the sources: types with their models, and the contracts of functions."""
from __future__ import annotations

import re
from dataclasses import dataclass, field

import specs

TYPE = re.compile(r'( *)pub(?:\([^)]*\))? (?:enum|struct) (\w+)')
FUNCTION = re.compile(r'( *)pub(?:\([^)]*\))? fn (\w+)')
MODEL = re.compile(r'impl(?:<[^{]*>)? Model for (\w+)')
WORD = re.compile(r'[^\W\d][\w-]*(?:\.[^\W\d][\w-]*)*')


@dataclass
class SourceType:
    """A type that the source declares."""
    crate: str
    file: str
    name: str
    comment: list[str]
    lines: list[str] = field(default_factory=list)
    value: str = ''  # what a model makes of it, where it has one
    view: str = ''
    imports: dict[str, tuple[str, str | None]] = field(default_factory=dict)  # of the model

    def fields(self) -> str:
        """Returns the text of its fields, in which names that begin with a capital are types."""
        return '\n'.join(re.sub(r'^ +[A-Z]\w*(?=[,({ ]|$)', '', line.partition('//')[0]) for line in self.lines)

    def sentence(self) -> str:
        """Returns the first sentence of its comment, with a small letter."""
        text = re.split(r'(?<=\w)[.;:](?: |$)', ' '.join(self.comment))[0]
        return text[:1].lower() + text[1:] if re.match(r'[A-Z](?:[a-z]| )', text) else text


@dataclass
class Contract:
    """A function of the source: its signature with its clauses, and what these import."""
    crate: str
    file: str
    name: str
    text: str
    imports: dict[str, tuple[str, str | None]]
    library: dict[str, str]


def ghost_imports(text: str) -> specs.Module:
    """Returns what the ghost use lines of a text bring."""
    module = specs.Module()
    for path, items, alias in re.findall(r'ghost use (?:Rattle\.)?([\w.]+?)(?:\.\{([^}]*)\})?(?: as (\S+))?;', text):
        specs.read_import(module, path, ' '.join(items.split()) or None, alias)
    return module


def block(lines: list[str], start: int, indent: str) -> list[str]:
    """Returns the lines of an item from its head to the brace that closes it, or to its semicolon."""
    for number in range(start, len(lines)):
        if lines[number].startswith(indent + '}') or lines[number].rstrip().endswith((';', ' }')) and number == start:
            return lines[start:number + 1]
    return lines[start:]


def types_of(crate: str, file: str, text: str) -> list[SourceType]:
    """Returns the types that a file of the source declares, each with its model."""
    found, comment, lines = {}, [], text.split('\n')
    for number, line in enumerate(lines):
        head = TYPE.match(line)
        if head and head.group(2) not in found:
            found[head.group(2)] = SourceType(crate, file, head.group(2), comment, block(lines, number, head.group(1)))
        model = MODEL.match(line)
        if model and model.group(1) in found:
            read_model(found[model.group(1)], text, '\n'.join(block(lines, number, '')))
        if line.lstrip().startswith('///'):
            comment = comment + [line.strip()[3:].strip()]
        elif not line.lstrip().startswith('#['):
            comment = []
    return list(found.values())


def read_model(of: SourceType, text: str, model: str) -> None:
    """Notes what a model makes of a type."""
    value, view = (re.search(r'ghost %s = \{(.*?)\};' % word, model, re.S) for word in ('Value', 'view'))
    of.value, of.view = (' '.join(part.group(1).split()) if part else '' for part in (value, view))
    of.imports = {**ghost_imports(text.partition('\nimpl')[0]).imports, **ghost_imports(model).imports}


def contract(crate: str, file: str, text: str, name: str) -> Contract | None:
    """Returns the contract of a function of a file: its text from the head to the brace before its body."""
    found = re.search(r'^( *)pub(?:\([^)]*\))? fn %s\b.*?(?:^\1\{\}?| \{\}?)$' % name, text, re.M | re.S)
    if not found:
        return None
    used = ghost_imports(text)
    return Contract(crate, file, name, found.group(), used.imports, used.library)


def all_types(root: str, crates: list[str]) -> dict[tuple[str, str], SourceType]:
    """Returns each type of the sources, by crate and name."""
    found: dict[tuple[str, str], SourceType] = {}
    for crate in crates:
        for file, text in specs.sources(root, crate).items():
            for one in types_of(crate, file, text):
                found.setdefault((crate, one.name), one)
    return found


def find_contract(root: str, crate: str, name: str) -> Contract | None:
    """Returns the contract of a function of a crate."""
    found = (contract(crate, file, text, name) for file, text in specs.sources(root, crate).items())
    return next((one for one in found if one), None)


def find_comment(root: str, crate: str, name: str) -> str:
    """Returns the doc comment of a function of a crate, on one line."""
    for text in specs.sources(root, crate).values():
        found = re.search(r'((?:^ *///[^\n]*\n)+)(?:^ *#\[[^\n]*\n)*^ *pub(?:\([^)]*\))? fn %s\b' % name, text, re.M)
        if found:
            return ' '.join(line.strip()[3:].strip() for line in found.group(1).strip().split('\n'))
    return ''
