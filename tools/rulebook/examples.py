"""Computed examples: facts that the prover computes from the definitions, and not the program."""
from __future__ import annotations

import glob
import re
from dataclasses import dataclass

import specs
from rulebook import sources

HEAD = re.compile(r'-- Example for the chapter `([\w-]+)`: ([^\n]*?)\n((?:--[^\n]*\n)*)')
LONG_TEXT = re.compile(r'codes "((?:[^"\\]*\\n){4,})"')
NAMED = re.compile(r'(abbrev |unfoldable )?(pub )?([^\W\d][\w-]*)(?= :)')


@dataclass(frozen=True)
class Example:
    """An example: the chapter that it belongs to, its title, what it shows, its text, and where that stands."""
    chapter: str
    title: str
    text: str
    code: str
    path: str
    heading: str = 'Computed'
    names: tuple[tuple[str, str], ...] = ()  # the definitions that it shows


@dataclass(frozen=True)
class Law:
    """What functions state: definitions of a file of specs/, all of them if none is named, and the functions that say so."""
    chapter: str
    title: str
    file: str  # as `crate/specs/File`
    definitions: tuple[str, ...]
    functions: tuple[str, ...]
    heading: str = 'Computed'


def read_example(path: str, text: str) -> Example | None:
    """Returns the example that a file of proofs has, if its first line says so. What proves a fact, that it is computed, is left out."""
    head = HEAD.match(text)
    if not head:
        return None
    chapter, title, rest = head.groups()
    words = ' '.join(line[2:].strip() for line in rest.split('\n'))
    parts = re.sub(r'^use [^\n]*\n', '', text[head.end():], flags=re.M).strip('\n').split('\n\n')
    return Example(chapter, title.rstrip('.'), words.strip(), '\n\n'.join(shown_of([statement(part) for part in parts])) + '\n', path)


def shown_of(parts: list[str]) -> list[str]:
    """Returns the facts among the parts of an example, and the definitions that they need, in order."""
    named = {part: found.group(1) for part in parts if (found := re.search(r'^([^\W\d][\w-]*) :', part, re.M))}
    needed = {part for part in parts if part and not re.search(r'^%s(?: .*)? =' % re.escape(named.get(part, '=')), part, re.M)}
    while True:
        words = {word for part in needed for word in re.findall(r'[^\W\d][\w-]*', part)}
        more = {part for part, name in named.items() if name in words} - needed
        if not more:
            return [part for part in parts if part in needed]
        needed |= more


def statement(part: str) -> str:
    """Returns a definition whole, and a fact that is `pub` without what proves it; of another, a step of a proof, nothing. A text of many
    lines stands line by line."""
    lines = LONG_TEXT.sub(lambda found: 'codes "\n%s    "' % ''.join('      %s\n' % line for line in found.group(1).split('\\n')[:-1]), part).split('\n')
    at = next((number for number, line in enumerate(lines) if not line.startswith('--')), len(lines))
    named = NAMED.match(lines[at]) if at < len(lines) else None
    if not named:
        return part
    if not named.group(1) and not named.group(2):
        return ''
    lines[at] = lines[at][named.start(3):]
    proof = re.compile(r'unfolding |%s(?: .*)? =' % re.escape(named.group(3)))
    end = next((number for number, line in enumerate(lines) if proof.match(line)), len(lines)) if not named.group(1) else len(lines)
    return '\n'.join(lines[:end])


def without_verb(comment: str) -> str:
    """Returns what the comment of a law says, without the verb that a function's comment begins with."""
    text = re.sub(r'^States (?:that )?', '', comment)
    return text[:1].upper() + text[1:]


def law_example(root: str, modules: dict[str, specs.Module], law: Law) -> Example:
    """Returns what functions state."""
    module, crate = modules[law.file], law.file.partition('/')[0]
    named = [definition for name, definition in module.definitions.items() if name in law.definitions or not law.definitions]
    parts = [''.join('-- %s\n' % line for line in one.comment) + '\n'.join(one.lines) + '\n' for one in named]
    for function in law.functions:
        contract = sources.find_contract(root, crate, function)
        if contract is None:
            raise ValueError('no law %s: %s' % (crate, function))
        stated = re.findall(r'ensures (?:\w+ )?\{ (.*?) \}$', contract.text, re.S | re.M)
        parts.append('-- it holds: %s\n%s\n' % (function, '\n'.join(stated)))
    names = ' and '.join('`%s: %s`' % (crate, function) for function in law.functions)
    comment = '' if law.definitions else ' '.join(module.comment) + ' '
    says = ' '.join(without_verb(sources.find_comment(root, crate, function)) for function in law.functions)
    shown = tuple((law.file, one.name) for one in named)
    return Example(law.chapter, law.title, '%s%s (%s)' % (comment, says, names), '\n'.join(parts), 'crates/%s.antt' % law.file, law.heading, shown)


def all_examples(root: str, modules: dict[str, specs.Module], laws: list[Law]) -> list[Example]:
    """Returns the examples of all crates: those that laws state, and those of proofs/ by their paths."""
    found = [law_example(root, modules, law) for law in laws]
    for path in sorted(glob.glob(root + '/crates/*/proofs/**/*.antt', recursive=True)):
        with open(path, encoding='utf-8') as file:
            example = read_example(path[len(root) + 1:], file.read())
        found += [example] if example else []
    return found
