"""The chapters of the rulebook: which text of the players each has, and which definitions it is the first to need."""
from __future__ import annotations

import re
from collections.abc import Iterator
from dataclasses import dataclass, field

from rulebook.reach import House, Name

SPAN = re.compile(r'`([^`\n]+)`')
CITED = re.compile(r'(\w+): ([^\W\d][\w-]*(?:, [^\W\d][\w-]*)*)$')
HEADING = re.compile(r'^#+ (.*)$', re.M)


@dataclass(frozen=True)
class Headed:
    """What states the rule of a section, each as `crate: name`: the definition and the function that carries it out. And a game of games/
    that shows it."""
    definition: str
    function: str
    game: str


@dataclass(frozen=True)
class Made:
    """A table that is made from a definition, `crate: name`: the `rows` of a table of rules, or the `events` of an act."""
    shape: str
    name: str


@dataclass
class Chapter:
    """A chapter: its file and its title, the sections of the players' pages that it has, a text of its own behind them, and more
    definitions that it brings."""
    file: str
    title: str
    sections: list[tuple[str, str]]
    roots: list[str] = field(default_factory=list)
    files: list[str] = field(default_factory=list)  # of specs/, as `crate/File`
    text: str = ''
    cited: list[Name] = field(default_factory=list)
    brings: list[Name] = field(default_factory=list)


def section(page: str, heading: str) -> str:
    """Returns the text of a section below its heading: up to the next heading of its level, or of any if the name ends in a colon."""
    found = re.search(r'^(#+) %s\n' % re.escape(heading.rstrip(':')), page, re.M)
    if not found:
        raise ValueError('no heading "%s"' % heading)
    rest = page[found.end():]
    depth = 6 if heading.endswith(':') else len(found.group(1))
    end = re.search(r'^#{1,%d} ' % depth, without_code(rest), re.M)
    return rest[:end.start() if end else None].strip('\n') + '\n'


def without_code(text: str) -> str:
    """Returns a text of the same length whose fenced blocks have no `#`."""
    return re.sub(r'^```.*?^```', lambda found: found.group().replace('#', ' '), text, flags=re.M | re.S)


class Index:
    """The definitions by crate and name."""

    def __init__(self, house: House, reached: set[Name]):
        self.house, self.reached = house, reached
        self.by_name: dict[str, list[Name]] = {}
        for key, module in house.modules.items():
            for name in module.definitions:
                self.by_name.setdefault(name, []).append((key, name))

    def named(self, crate: str, name: str) -> Name | None:
        """Returns the definition of a crate with a name, one that a claim reaches if there is one."""
        there = [one for one in self.by_name.get(name, []) if one[0].startswith(crate + '/')]
        passed = [self.house.resolve(key, name) for key in self.house.modules if key.startswith(crate + '/specs/') and not there]
        there += [one for one in passed if one and one[0] in self.house.modules]
        return next((one for one in there if one in self.reached), there[0] if there else None)

    def alone(self, name: str) -> Name | None:
        """Returns the one definition that a claim reaches and that has a name."""
        there = [one for one in self.by_name.get(name, []) if one in self.reached]
        return there[0] if len(there) == 1 else None

    def cited_in(self, text: str) -> Iterator[Name]:
        """Yields the definitions that a text of the players cites, in order."""
        crate = ''
        for line in text.split('\n'):
            crate = crate if line.strip() else ''
            for span in SPAN.findall(line):
                cited = CITED.match(span)
                if cited and cited.group(1) in self.house.below:
                    crate = cited.group(1)
                    found = [self.named(crate, name) for name in cited.group(2).split(', ')]
                elif re.fullmatch(r'\w+', span) and (crate or '_' in span):
                    found = [crate and self.named(crate, span) or self.alone(span)]
                else:
                    continue
                yield from (one for one in found if one and one in self.reached)


def fill(chapters: list[Chapter], pages: dict[str, str], index: Index, contracts: dict[str, list[Name]],
         stated: dict[str, list[str]]) -> None:
    """Gives each chapter its text and its definitions: each definition to the first that needs it. What contracts name is at home in
    the chapter with that file, and what states the rules of a section, by its heading, in the chapter that has it."""
    home: dict[Name, Chapter] = {}
    for chapter in chapters:
        parts = [(heading, section(pages[page], heading)) for page, heading in chapter.sections]
        chapter.text = '\n'.join([part if number == 0 else '### %s\n\n%s' % (heading.rstrip(':'), part)
                                  for number, (heading, part) in enumerate(parts)] + [chapter.text] * bool(chapter.text))
        for root in chapter.roots:
            one = index.named(*root.split(': '))
            if one is None:
                raise ValueError('no definition %s' % root)
            home.setdefault(one, chapter)
    for chapter in chapters:
        for heading in [heading for _, heading in chapter.sections] + HEADING.findall(chapter.text):
            named = [index.named(*name.split(': ')) for name in stated.get(heading, [])]
            for one in [one for one in named if one in index.reached]:
                home.setdefault(one, chapter)
    for chapter in chapters:
        chapter.cited = list(dict.fromkeys(index.cited_in(chapter.text)))
        for one in chapter.cited:
            home.setdefault(one, chapter)
    for chapter in chapters:
        inside = [one for one in sorted(index.reached) if one[0].replace('/specs/', '/') in chapter.files]
        for one in inside + contracts.get(chapter.file, []):
            home.setdefault(one, chapter)
    roots = dict(home)
    for chapter in chapters:
        todo = [one for one, of in roots.items() if of is chapter][::-1]
        while todo:
            one = todo.pop()
            if home.setdefault(one, chapter) is chapter and one not in chapter.brings:
                chapter.brings.append(one)
                todo += [other for other in index.house.used_by(one)[0] if roots.get(other, chapter) is chapter][::-1]
        home.update(dict.fromkeys(chapter.brings, chapter))
    chapters[-1].brings += sorted(index.reached - home.keys())  # what only a model of a type names
