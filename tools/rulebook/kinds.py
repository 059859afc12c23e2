"""Whether a definition is a rule, a table or plumbing."""
from __future__ import annotations

import re
from enum import Enum

import specs
from rulebook import terms


class Kind(Enum):
    """What a definition is to a reader of the rules."""
    RULE = 'rule'
    TABLE = 'table'
    PLUMBING = 'plumbing'


# The two cases of an option or a result, and what the first of them leads to if nothing is said by that.
APART = re.compile(r'\b(?:None|Some|Ok|Err)\b')
NOTHING = re.compile(r'None|\[\]|false|0|pos 0|⊥|Unit \{0\}|Err \w+')
PLUMBING_NAMES = re.compile(r'same_\w+|(?:\w+_)?index_of(?:_\w+)?')
# What the tests below would take for something else.
RULES = {'Ends', 'first_broken', 'limit_from', 'least_over', 'same_offer', 'same_terms', 'rusts_at', 'leg_from', 'leg_over', 'made_along',
         'travelled', 'arrived', 'fault_of_standing', 'AreListed'}
TABLES = {'code_of_pay_rule', 'sentence_of_pay_rule'}
RULES_OF_ALL = {'tables/specs/Turns', 'turns/specs/RoundOfTurns', 'turns/specs/Ruling', 'sheets/specs/Taken', 'umpire/specs/Verify'}


def sides(name: str, lines: list[str]) -> list[tuple[str, str]]:
    """Returns the equations of a definition: of each the patterns on its left, and its right side."""
    parts = list(terms.clauses(name, lines))[1:]
    return [(left[len(name):].strip(), right.strip()) for left, _, right in (part.partition('=') for part in parts)]


def heads(text: str) -> set[str]:
    """Returns the words of a text, each up to its first dot."""
    return {word.partition('.')[0] for word in terms.WORD.findall(text)}


def is_constant(left: str, right: str) -> bool:
    """Returns whether an equation gives a value that does not depend on what its left side binds."""
    return not re.search(r'\b(?:if|elim|let)\b|λ', right) and not terms.bound_by_pattern(left) & heads(right)


def is_table(of: specs.Definition, equations: list[tuple[str, str]]) -> bool:
    """Returns whether a definition is a table: a number or a list, or a constant for each case of its last argument."""
    if not equations or 'Type 0' in next(terms.clauses(of.name, of.lines)):
        return False
    if len(equations) == 1:
        left, right = equations[0]
        return not left and bool(re.match(r'\d+$|.*\[\]|take |drop ', right)) and is_constant(left, right)
    return all(is_constant(left, right) and not APART.search(left) for left, right in equations)


def takes_apart(equations: list[tuple[str, str]]) -> bool:
    """Returns whether a definition only takes an option or a result apart: nothing comes of nothing, and the other case is an application."""
    if len(equations) != 2 or not all(APART.search(left) for left, _ in equations):
        return False
    (left, nothing), (_, something) = sorted(equations, key=lambda one: len(one[1]))
    if not NOTHING.fullmatch(nothing) and nothing not in terms.bound_by_pattern(left):
        return False
    return not re.search(r'\b(?:if|elim|let|not|event|nat_l[et]|l[et]_z)\b|λ|[-+*/<≤≡×⊎&|=%]|\d', something)


def is_general(of: specs.Definition) -> bool:
    """Returns whether a definition is of any type of values, so that it says nothing of the game."""
    return bool(re.search(r': (?:\([^)]*\) )?\{\w+(?: \w+)* : Type', of.lines[0]))


def only_builds(equations: list[tuple[str, str]]) -> bool:
    """Returns whether a definition only puts its arguments into a record, or picks a field of one."""
    if len(equations) != 1:
        return False
    left, right = equations[0]
    fields = re.fullmatch(r'record \{ ?(.*?);? ?\}', right)
    values = [part.partition('=')[2].strip() for part in fields.group(1).split(';')] if fields else []
    return bool(values) and bool(left) and all(re.fullmatch(r'\w+', value) for value in values) or bool(re.fullmatch(r'\w+(\.\w+)+', right))


def kind_of(of: specs.Definition) -> Kind:
    """Returns which of the three a definition is."""
    equations = sides(of.name, of.lines)
    if of.name in TABLES:
        return Kind.TABLE
    if of.name in RULES or '%s/specs/%s' % (of.crate, of.module) in RULES_OF_ALL:
        return Kind.RULE
    if PLUMBING_NAMES.fullmatch(of.name) or is_general(of) or only_builds(equations) or takes_apart(equations):
        return Kind.PLUMBING
    return Kind.TABLE if is_table(of, equations) else Kind.RULE


