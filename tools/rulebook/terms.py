"""The words that a definition uses: those that it does not bind itself."""
from __future__ import annotations

import re
from collections.abc import Iterator

WORD = re.compile(r"(?<![\w.)'-])[^\W\d][\w-]*(?:\.\w+)*")
TEXT = re.compile(r'"[^"]*"')
# What binds names: an argument with its type, a λ, a let.
TYPED = re.compile(r'[({]((?:[^\W\d][\w-]* )+):(?= |$)')
LAMBDA = re.compile(r'λ ((?:\([^()]*\)|[^.()])*)\.(?= |$)')
LET = re.compile(r'\blet ([^\W\d][\w-]*) =')
LABEL = re.compile(r'(?<=[{;]) *([^\W\d][\w-]*) =')
# Lower-case words that are constructors of the library, and so are not bound by a pattern.
CONSTRUCTORS = {'suc', 'zero', 'pos', 'negsuc', 'inl', 'inr', 'tt', 'true', 'false'}


def clauses(name: str, lines: list[str]) -> Iterator[str]:
    """Yields the parts of a definition: its head with the type, and each of its equations."""
    part: list[str] = []
    for line in lines:
        if part and re.match(re.escape(name) + r'(?: |$)', line):
            yield ' '.join(part)
            part = []
        part.append(line.strip())
    yield ' '.join(part)


def bound_by_pattern(left: str) -> set[str]:
    """Returns the variables of the left side of an equation: its words with a small first letter."""
    return {word for word in WORD.findall(left) if '.' not in word and word[0].islower()} - CONSTRUCTORS


def bound_in(clause: str, is_equation: bool) -> set[str]:
    """Returns what a clause binds, other than by its left side."""
    bound = {name for names in TYPED.findall(clause) for name in names.split()}
    for names in LAMBDA.findall(clause):
        bound |= bound_by_pattern(names.partition(':')[0])
    bound |= set(LET.findall(clause))
    if '↦' in clause:
        for left in re.findall(r'[\[|] ([^\[|]*?) ↦', clause):
            bound |= bound_by_pattern(left)
    return bound | (bound_by_pattern(clause.partition(' = ')[0]) if is_equation else set())


def words(name: str, lines: list[str], is_shape: bool) -> set[str]:
    """Returns the words that a definition uses and does not bind. A shape is a `record` or a `data`, which has no equations."""
    used: set[str] = set()
    for number, clause in enumerate(clauses(name, lines)):
        clause = TEXT.sub('""', clause)
        is_equation = number > 0 and not is_shape
        bound = bound_in(clause, is_equation) | {name}
        if is_shape:
            bound |= set(re.findall(r'(?:^| )pub ([^\W\d][\w-]*)(?: \([^)]*\))* :', clause))
        for word in WORD.findall(LABEL.sub(' ', clause)):
            head = word.partition('.')[0]
            if head not in bound:
                used.add(word)
    return used - {'abbrev', 'unfoldable', 'pub', 'record', 'data', 'where', 'let', 'in', 'elim', 'then', 'else'}
