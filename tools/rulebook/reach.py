"""Everything that a claim rests on: definitions, types of the source, and words of the kit's library."""
from __future__ import annotations

import os
import re

import specs
from rulebook import terms
from rulebook.sources import Contract, SourceType, all_types

Name = tuple[str, str]


class House:
    """All definitions and all types of the repository, and how the names of one lead to others."""

    def __init__(self, modules: dict[str, specs.Module], types: dict[Name, SourceType], below: dict[str, list[str]]):
        self.modules, self.types, self.below = modules, types, below
        self.owner: dict[Name, str] = {}  # a constructor of a `data`, with the name of that
        self.uses: dict[Name, tuple[list[Name], set[Name], set[Name]]] = {}
        for key, module in modules.items():
            for definition in module.definitions.values():
                if re.search(r'\bdata\b', definition.lines[0]):
                    for line in definition.lines[1:]:
                        found = re.match(r'\s+(?:pub )?([^\W\d][\w-]*)\s*:(?: |$)', line)
                        if found:
                            self.owner[(key, found.group(1))] = definition.name

    def definition(self, one: Name) -> specs.Definition:
        return self.modules[one[0]].definitions[one[1]]

    def lines(self, names: set[Name]) -> int:
        return sum(len(self.definition(one).lines) for one in names)

    def resolve(self, key: str, name: str) -> Name | None:
        """Follows a name of a file to the definition, or to the place where a type is declared."""
        while key in self.modules:
            name = self.owner.get((key, name), name)
            if name in self.modules[key].definitions:
                return key, name
            if name not in self.modules[key].imports:
                return None
            key, other = self.modules[key].imports[name]
            name = other or name
        return key, name

    def of_word(self, imports: dict[str, tuple[str, str | None]], word: str) -> Name | None:
        """Returns what a word names by these imports."""
        head, _, rest = word.partition('.')
        if head not in imports:
            return None
        target, name = imports[head]
        if name is None and not rest:
            return None
        return self.resolve(target, name or rest.split('.')[0])

    def type_at(self, place: Name) -> Name | None:
        """Returns the type of the source that is declared at a place: `crate/specs/declared/file/Type`."""
        found = re.match(r'(\w+)/specs/declared/(.*)$', place[0])
        parts = [part for part in found.group(2).split('/') if part != 'TheVariants'] if found else []
        return (found.group(1), parts[-1]) if parts and (found.group(1), parts[-1]) in self.types else None

    def near(self, crate: str, word: str) -> Name | None:
        """Returns the type of that name in a crate, or in the nearest below it."""
        return next(((one, word) for one in [crate] + self.below[crate] if (one, word) in self.types), None)

    def used_by(self, one: Name) -> tuple[list[Name], set[Name], set[Name]]:
        """Returns the definitions, the types and the words of the library that a definition names."""
        if one not in self.uses:
            key, module, definition = one[0], self.modules[one[0]], self.definition(one)
            shape = bool(re.search(r'\b(?:record|data)\b', definition.lines[0].partition(':')[0]))
            used = terms.words(definition.name, definition.lines, shape) | set(terms.WORD.findall(definition.shared))
            targets = []
            for word in sorted(used):
                head = word.partition('.')[0]
                local = self.resolve(key, head) if head in module.definitions or (key, head) in self.owner else None
                targets.append(local or self.of_word(module.imports, word))
            self.uses[one] = self.parted(targets) + (library_words(module.library, ' '.join(definition.lines)),)
        return self.uses[one]

    def parted(self, targets: list[Name | None]) -> tuple[list[Name], set[Name]]:
        """Parts what words name into definitions and types."""
        there = [target for target in targets if target]
        found = {self.type_at(target) for target in there if target[0] not in self.modules}
        return [target for target in there if target[0] in self.modules], {one for one in found if one}

    def used_by_contract(self, contract: Contract) -> tuple[list[Name], set[Name], set[Name]]:
        """Returns what a contract names: definitions and words in its clauses, and types in its signature."""
        definitions, types = self.parted([self.of_word(contract.imports, word) for word in terms.WORD.findall(contract.text)])
        head = re.split(r'\n *(?:requires|ensures)\b', contract.text)[0]
        near = (self.near(contract.crate, word) for word in re.findall(r'\b[A-Z]\w*', head))
        members = {('std/specs/Io', word) for word in re.findall(r'\b[RW]\.(\w+)', contract.text)}
        return definitions, types | {one for one in near if one}, library_words(contract.library, contract.text) | members

    def used_by_type(self, one: Name) -> tuple[list[Name], set[Name]]:
        """Returns what definitions see of a type: what its model names, or the types in its fields."""
        of = self.types[one]
        if of.value:
            found = [(word, self.of_word(of.imports, word)) for word in terms.WORD.findall(of.value)]
            definitions, types = self.parted([target for _, target in found])
            return definitions, types | {near for word, target in found if not target and (near := self.near(one[0], word))}
        near = (self.near(one[0], word) for word in re.findall(r'\b[A-Z]\w*', of.fields()))
        return [], {other for other in near if other}


def read_house(root: str) -> House:
    """Returns all definitions and types of a repository."""
    with open(os.path.join(root, 'crates.txt'), encoding='utf-8') as file:
        below = {name: others.split() for name, others in re.findall(r'^(\w+):(.*)$', file.read(), re.M)}
    crates = sorted(os.listdir(os.path.join(root, 'crates')))
    return House(specs.read_all(root), all_types(root, crates), below)


def files_by_name(definitions: set[Name]) -> dict[str, list[str]]:
    """Returns the names of some definitions, in order, each with the files that define it."""
    found: dict[str, list[str]] = {}
    for file, name in sorted(definitions, key=lambda one: one[::-1]):
        found.setdefault(name, []).append(file)
    return found


def library_words(library: dict[str, str], text: str) -> set[Name]:
    """Returns the words of the library that stand in a text, operators among them."""
    text = terms.TEXT.sub('""', text)
    found = set()
    for name, module in library.items():
        sign = next(part for part in name.split('◌') if part)
        if re.search(r'(?<![^\s(){}\[\]])%s(?![^\s(){}\[\]=;,.])' % re.escape(sign), text):
            found.add((module, name))
    return found


class Reach:
    """What some contracts and definitions rest on."""

    def __init__(self, house: House):
        self.house = house
        self.definitions: set[Name] = set()
        self.types: set[Name] = set()
        self.library: set[Name] = set()

    def add_contract(self, contract: Contract) -> None:
        definitions, types, library = self.house.used_by_contract(contract)
        self.library |= library
        self.add(definitions, types)

    def add(self, definitions: list[Name], types: set[Name] = frozenset()) -> None:
        """Adds these, and all that they rest on."""
        names, shapes = list(definitions), list(types)
        while names or shapes:
            if names and (one := names.pop()) not in self.definitions:
                self.definitions.add(one)
                more, others, library = self.house.used_by(one)
                self.library |= library
                names, shapes = names + more, shapes + list(others)
            if shapes and (shape := shapes.pop()) not in self.types:
                self.types.add(shape)
                more, others = self.house.used_by_type(shape)
                names, shapes = names + more, shapes + list(others)
