"""Definitions in the shapes of a rulebook: rows of rules, what happens event by event, and tables."""
from __future__ import annotations

import re
from collections.abc import Iterator
from dataclasses import dataclass

from rulebook import terms
from rulebook.chapters import Index
from rulebook.kinds import sides
from rulebook.reach import House, Name
from rulebook.sources import SourceType

INNER = r'\([^()]*\)'
for _ in range(3):
    INNER = r'\((?:[^()]|%s)*\)' % INNER
ENTRY = re.compile(r'record \{ code = (?P<code>[^;]*); broken = (?P<test>.*?);? \}'
                   r'|\btested_\w+_rule (?P<short>[\w.]+) (?P<term>%s)|(?P<word>[^\W\d][\w.-]*)' % INNER)
TEXT = re.compile(r'"([^"]*)"')
# Events whose line begins with another word than their name.
EVENT_WORDS = {'PrivateBought': 'PRIVATE', 'Ruled': 'OBEYED'}


@dataclass(frozen=True)
class Row:
    """A rule of a table: its code, its sentence, its test in words of the definitions, and where that is."""
    code: str
    sentence: str
    test: str
    place: str


@dataclass(frozen=True)
class Step:
    """An event that an act records: its word, what it says, when it comes, and the definition that records it."""
    word: str
    says: str
    when: str
    name: Name


def cite(one: Name) -> str:
    return '`%s: %s`' % (one[0].partition('/')[0], one[1])


def place(one: Name) -> str:
    return '`%s`' % one[0].replace('/specs/', ': specs/')


def table(heads: list[str], rows: list[list[str]]) -> str:
    """Returns a table of Markdown."""
    lines = [heads, ['---'] * len(heads)] + rows
    return ''.join('| %s |\n' % ' | '.join(line) for line in lines).replace('| --- ', '|---').replace('--- |', '---|')


# How a word of each class is written in a form, and what is repeated at its end.
CLASSES = {'Number': 'n', 'Name': 'name', 'Round': 'round', 'Private': 'p', 'Company': 'co', 'Kind': 'kind', 'Tile': 'tile', 'Hex': 'hex',
           'Rotation': 'rot', 'Place': 'place', 'HexDigits': 'digits'}
TRAILING = {'Nothing': '', 'Names': ' name name name ..', 'Places': ' place place ..'}


def folded(heads: list[str], rows: list[list[str]]) -> str:
    """Returns a table whose rows stand four beside one another where they are many and short."""
    if len(rows) <= 20 or len(heads) > 2 or max(len(cell) for row in rows for cell in row) > 24:
        return table(heads, rows)
    deep = -(-len(rows) // 4)
    columns = [rows[at:at + deep] + [['', '']] * (at + deep - len(rows)) for at in range(0, 4 * deep, deep)]
    return table(heads * 4, [sum(beside, []) for beside in zip(*columns)])


def is_negated(term: str) -> bool:
    """Returns whether a term is `not` of all that follows."""
    return bool(re.fullmatch(r'not (?:[\w.]+|%s)' % INNER, term.strip()))


def stripped(term: str) -> str:
    """Returns a term without the brackets around it."""
    text = term.strip('() ')
    return text + ')' * (text.count('(') - text.count(')'))


def sentence(text: str) -> str:
    """Returns a comment as it stands in a cell: on one line, without a full stop at its end."""
    return text[:-1] if text.endswith('.') and text.count('. ') == 0 else text


class Shapes:
    """What the definitions of a house look like in a rulebook."""

    def __init__(self, house: House, index: Index):
        self.house, self.index = house, index
        self.texts = self.rule_texts()
        self.recording: dict[Name, bool] = {}
        self.shown: set[Name] = set()  # the tables that a text of the players has in their own shape

    def variant(self, key: str, word: str) -> tuple[str, str] | None:
        """Returns the type and the variant of it that a word of a file names."""
        head, _, rest = word.partition('.')
        target, name = self.house.modules[key].imports.get(head, ('', None))
        if not target.endswith('/TheVariants'):
            return None
        return target.split('/')[-2], rest or name or head

    def rule_texts(self) -> dict[tuple[str, str], tuple[str, str]]:
        """Returns the code and the sentence of each rule, by its type and variant."""
        of = {kind: dict(self.texts_by_variant(kind)) for kind in ('code_of', 'sentence_of')}
        return {one: (code, of['sentence_of'][one]) for one, code in of['code_of'].items() if one in of['sentence_of']}

    def texts_by_variant(self, kind: str) -> Iterator[tuple[tuple[str, str], str]]:
        """Yields the text that a definition of codes or of sentences gives each variant."""
        for key, module in self.house.modules.items():
            for definition in module.definitions.values():
                if definition.name == kind or definition.name.startswith(kind + '_'):
                    for left, right in sides(definition.name, definition.lines):
                        found = self.variant(key, left.strip('() ').split()[0]) if left and TEXT.search(right) else None
                        if found:
                            yield found, ''.join(TEXT.findall(right))

    def rows(self, one: Name) -> list[Row]:
        """Returns the rows of a table of rules, and of those that it joins, in order."""
        found = []
        for _, right in sides(one[1], self.house.definition(one).lines):
            for entry in ENTRY.finditer(right):
                code, test = entry['code'] or entry['short'], entry['test'] or entry['term']
                if code:
                    found.append(self.row(one, code.split()[-1], test.strip()))
                elif entry['word'] and (other := self.follow(one[0], entry['word'])) and other != one and self.is_of_rules(other):
                    found += self.rows(other)
        return found

    def is_of_rules(self, one: Name) -> bool:
        return 'List (Rule ' in next(terms.clauses(one[1], self.house.definition(one).lines))

    def follow(self, key: str, word: str) -> Name | None:
        """Returns the definition that a word of a file names."""
        module = self.house.modules[key]
        one = (key, word) if word in module.definitions else self.house.of_word(module.imports, word)
        return one if one and one[0] in self.house.modules else None

    def row(self, one: Name, code: str, test: str) -> Row:
        variant = self.variant(one[0], code)
        number, text = self.texts.get(variant or ('', ''), ('', code))
        names, shown = [], []
        for part in re.split(r' (?:\|\||&&) ', stripped(test.removeprefix('not ')) if is_negated(test) else test):
            found = self.tests_in(one[0], part)
            names += found
            negated = 'not ' if is_negated(part) else ''
            shown += [negated + cite(name) for name in found] or [negated + '`%s`' % stripped(part.removeprefix('not '))]
        negated = 'not ' if is_negated(test) else ''
        return Row(number, text, negated + ', '.join(dict.fromkeys(shown)), place(next(iter(names), one)))

    def tests_in(self, key: str, term: str) -> list[Name]:
        """Returns the tests in a part of a term: what is applied first there, or is named as a test; or else all that it names."""
        first = re.match(r'[\s(]*(?:not[\s(]+)?([\w.]+)', term)
        words = [word for word in terms.WORD.findall(term) if self.follow(key, word)]
        kept = [word for word in words if first and word == first.group(1) or re.match(r'(?:is|has|are|have|lacks|needs|loses)_', word)]
        return [self.follow(key, word) for word in dict.fromkeys(kept or words)]

    def rows_table(self, one: Name) -> str:
        """Returns the rules of a table, each with its test and with the file that has it."""
        return table(['Code', 'Refused if', 'Test', 'Stands in'], [[row.code, row.sentence, row.test, row.place] for row in self.rows(one)])

    def records(self, one: Name) -> bool:
        """Returns whether a definition records an event, itself or by those that it uses."""
        if one not in self.recording:
            self.recording[one] = False
            self.recording[one] = any(True for _ in self.parts(one))
        return self.recording[one]

    def parts(self, one: Name) -> Iterator[tuple[str | None, Name]]:
        """Yields what a definition records, from the inside out: events by their names, and definitions that record some."""
        for _, right in sides(one[1], self.house.definition(one).lines):
            depths, depth = [], 0
            for sign in right:
                depth += (sign == '(') - (sign == ')')
                depths.append(depth)
            for word in sorted(terms.WORD.finditer(right), key=lambda word: (-depths[word.start()], word.start())):
                variant = self.variant(one[0], word.group())
                other = self.follow(one[0], word.group())
                if variant and variant[0] == 'Event':
                    yield variant[1], one
                elif other and other != one and self.records(other):
                    yield None, other

    def steps(self, one: Name) -> list[Step]:
        """Returns the events that an act may record, in order."""
        found: list[Step] = []
        for event, other in dict.fromkeys(self.parts(one)):
            found += [self.step(event, other)] if event else self.steps(other)
        return without_repeats(found)

    def step(self, event: str, one: Name) -> Step:
        says = variant_comments(self.house.types[('events', 'Event')]).get(event, '')
        return Step(EVENT_WORDS.get(event, event.upper()), for_players(says), for_players(' '.join(self.house.definition(one).comment)), one)

    def events_table(self, one: Name) -> str:
        """Returns the events that an act may record, each with what it says, when it comes, and what records it."""
        rows = [[step.word, sentence(step.says), sentence(step.when), cite(step.name)] for step in self.steps(one)]
        return table(['Event', 'What it says', 'It is recorded', 'By'], rows)

    def columns_table(self, names: list[Name], heads: list[str], by_names: bool = False) -> str:
        """Returns definitions by cases as the columns of a table, with a row for each case."""
        rows: dict[str, list[str]] = {}
        for number, one in enumerate(names):
            for left, right in self.arms(one):
                row = rows.setdefault(left.split('.')[-1], [(self.name if by_names else self.case)(one[0], left)] + ['–'] * len(names))
                row[number + 1] = self.value(one[0], right)
        return folded(heads, list(rows.values()))

    def arms(self, one: Name) -> list[tuple[str, str]]:
        """Returns the equations of a definition by cases, with an equation for each case that its last one leaves to any other."""
        found = sides(one[1], self.house.definition(one).lines)
        first, (last, right) = found[0][0], found[-1]
        variant = self.variant(one[0], first) if re.fullmatch(r'[a-z]\w*', last) else None
        of = next((of for (_, name), of in self.house.types.items() if variant and name == variant[0]), None)
        named = {left.split('.')[-1] for left, _ in found}
        left_out = [first.rpartition('.')[0] + '.' * ('.' in first) + name for name in variants(of) if name not in named] if of else []
        if not left_out or not all(self.variant(one[0], left) for left in left_out):
            return found
        return found[:-1] + [(left, right) for left in left_out]

    def name(self, key: str, left: str) -> str:
        """Returns what the left side of an equation names, by what the source says of it: what follows the code."""
        kind, variant = self.variant(key, left) or ('', '')
        of = next((of for (_, name), of in self.house.types.items() if name == kind), None)
        return re.sub(r'^\w+, (?:the )?', '', variant_comments(of).get(variant, variant).rstrip('.')) if of else left

    def case(self, key: str, left: str) -> str:
        """Returns what the left side of an equation names, by its code where it has one."""
        variant = self.variant(key, left)
        return self.code(*variant) if variant else left

    def code(self, kind: str, variant: str) -> str:
        """Returns the code of a company, a private or a kind of train, or the words of another name."""
        one = self.index.named('tables', 'code_of_%s' % kind.lower())
        for left, right in sides(one[1], self.house.definition(one).lines) if one else []:
            if left.split('.')[-1] == variant:
                return TEXT.findall(right)[0]
        return re.sub(r'(?<=[a-z])(?=[A-Z])', ' ', variant).lower() if not re.fullmatch(r'[A-Z]+\d+', variant) else variant

    def value(self, key: str, right: str) -> str:
        """Returns a constant as it stands in a cell."""
        texts = TEXT.findall(right)
        if texts:
            return ''.join(texts)
        words = re.findall(r'[\w.]+', re.sub(r'\w+ = ', '', right))
        if key.startswith('map_tables') and any(self.follow(key, word) for word in words):
            return '`%s`' % re.sub(r' ∷ (?!\[\])', ', ', right).replace(' ∷ []', '')
        words = [word for word in words if word not in ('Some', 'pos', 'record') and not self.follow(key, word)]
        return ', '.join('–' if word == 'None' else self.case(key, word) for word in words)

    def forms(self, one: Name) -> list[str]:
        """Returns forms of lines as they are written: the first word, what each word after it is, and what is repeated."""
        words = self.index.named('order_grammar', 'text_of_keyword')
        texts = {left.split('.')[-1]: TEXT.findall(right)[0] for left, right in sides(words[1], self.house.definition(words).lines)}
        found = []
        for first, inside, trailing in re.findall(r'row keyword\.(\w+) (\[\]|\(.*?\[\]\)) \(?trailing_class\.(\w+)',
                                                  sides(one[1], self.house.definition(one).lines)[0][1]):
            classes = re.findall(r'class\.(\w+)(?: keyword\.(\w+))?', inside)
            parts = [texts[first]] + [texts[word] if word else CLASSES[kind] for kind, word in classes]
            found.append(' '.join(parts) + TRAILING[trailing])
        return found

    def forms_table(self, one: Name, meanings: dict[str, str]) -> str:
        """Returns the table of forms. What each means is the players' text, which stays as it is."""
        return table(['Line', 'Meaning'], [['`%s`' % form, meanings.get(form, '?')] for form in self.forms(one)])

    def chart(self, one: Name) -> str:
        """Returns the chart: the price of each square, and behind it the letter of its zone, or `p` for a par value."""
        right = sides(one[1], self.house.definition(one).lines)[0][1]
        rows = [re.findall(r'\b([woybp]) (\d+)|\b(x)\b', part) for part in right.split('[])')[:-1]]
        wide = max(len(row) for row in rows)
        cells = [[(price + mark.replace('w', '') if price else '-') for mark, price, _ in row] for row in rows]
        widths = [max(len(row[at]) if at < len(row) else 0 for row in cells) for at in range(wide)]
        widths = [max(width, len('%d' % (at + 1))) for at, width in enumerate(widths)]
        lines = ['  ' + ' '.join('%*d' % (width, at + 1) for at, width in enumerate(widths))]
        for letter, row in zip('ABCDEFGHIJK', cells):
            lines.append(letter + ' ' + ' '.join('%*s' % (width, cell) for width, cell in zip(widths, row)))
        return '```\n%s\n```\n' % '\n'.join(lines)


def for_players(text: str) -> str:
    """Returns a sentence of the source with the words that players use: the source has seats for players, and speaks of the bank pool."""
    return re.sub(r'\b([Tt]he|[Aa]|[Tt]his) seat\b', r'\1 player', text).replace('bank pool', 'pool')


def without_repeats(steps: list[Step]) -> list[Step]:
    """Returns steps without those that repeat the ones right before them, as where seat after seat is paid."""
    for length in range(1, len(steps) // 2 + 1):
        for at in range(len(steps) - 2 * length + 1):
            if steps[at:at + length] == steps[at + length:at + 2 * length]:
                return without_repeats(steps[:at + length] + steps[at + 2 * length:])
    return steps


def variants(of: SourceType) -> list[str]:
    """Returns the names of the variants of an enum."""
    return [found[1] for line in of.lines if (found := re.match(r'    ([A-Z]\w*)[,({ ]?', line))]


def variant_comments(of: SourceType) -> dict[str, str]:
    """Returns the comment of each variant of an enum."""
    found, comment = {}, []
    for line in of.lines:
        if line.strip().startswith('///'):
            comment.append(line.strip()[3:].strip())
            continue
        head = re.match(r'    ([A-Z]\w*)[,({ ]?', line)
        if head and comment:
            found[head.group(1)] = ' '.join(comment)
        comment = []
    return found
