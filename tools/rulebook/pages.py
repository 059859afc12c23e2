"""The pages of the rulebook as text."""
from __future__ import annotations

import re
import textwrap
from collections import Counter

import specs
from rulebook import shapes
from rulebook.chapters import HEADING, Chapter, Headed, Index, Made
from rulebook.examples import Example
from rulebook.kinds import Kind, kind_of
from rulebook.reach import House, Name, Reach
from rulebook.shapes import Shapes, cite, table

MADE = '<!-- `tools/claim --write` made this page. -->\n'
BLOCK = re.compile(r'(<!-- (columns|chart|forms) (\w+): ([^>]*?) -->\n)(.*?)(<!-- end -->\n)', re.S)


def wrap(text: str) -> str:
    return textwrap.fill(text, 120, break_long_words=False, break_on_hyphens=False) + '\n'


def wrap_comment(lines: list[str]) -> str:
    """Returns a comment as paragraphs and lists: a line that begins with a hyphen is an item."""
    parts: list[str] = ['']
    for line in lines:
        if not line or line.startswith('- '):
            parts.append('')
        parts[-1] = (parts[-1] + ' ' + line).strip()
    text = ''
    for part in filter(None, parts):
        is_item = part.startswith('- ')
        text += ('' if not text or (is_item and last_item) else '\n') + (wrap_item(part) if is_item else wrap(part))
        last_item = is_item
    return text


def wrap_item(text: str) -> str:
    return textwrap.fill(text, 120, subsequent_indent='  ', break_long_words=False, break_on_hyphens=False) + '\n'


def with_blocks(page: str, made: Shapes) -> str:
    """Returns a players' page whose tables that come from definitions are made again."""
    def fresh(found: re.Match[str]) -> str:
        head, shape, crate, rest, inside, end = found.groups()
        if shape != 'columns':
            one = named(made.index, crate, rest)
            made.shown |= {one} if shape in ('chart', 'forms') else set()
            if shape == 'forms':
                return head + made.forms_table(one, dict(re.findall(r'^\| `(.*?)` \| (.*) \|$', inside, re.M))) + end
            return head + (made.chart(one) if shape == 'chart' else '') + end
        parts = [part.split(' = ') for part in rest.split('; ')]
        names = [named(made.index, crate, name) for name, _ in parts[1:]]
        made.shown |= set(names)
        return head + made.columns_table(names, [parts[0][1]] + [title for _, title in parts[1:]], parts[0][0] == 'name') + end

    return BLOCK.sub(fresh, page)


def named(index: Index, crate: str, name: str) -> Name:
    one = index.named(crate, name)
    if one is None:
        raise ValueError('no definition %s: %s' % (crate, name))
    return one


def for_readers(page: str) -> str:
    """Returns a text of the players without the marks of its made tables, and with its links as they are from the rulebook."""
    text = re.sub(r'<!-- (?:columns|chart|forms) .*? -->\n|<!-- end -->\n', '', page)
    text = re.sub(r'\]\(\.\./docs/', '](../', text)
    return re.sub(r'\]\((?!\.\./|https?:)((?:[\w.-]+\.md)?(?:#[\w-]+)?)\)', lambda found: '](../players/%s)' % (
        found.group(1) if not found.group(1).startswith('#') else 'rules.md' + found.group(1)), text)


def stated_line(of: Headed) -> str:
    """Returns the line below a heading: what states its rule, and the game that shows it."""
    return ('Definition `%s` · function `%s` · game [`%s`](../../games/%s.orders), [its report](../../games/%s.report)\n'
            % (of.definition, of.function, of.game, of.game, of.game))


class Book:
    """The rulebook: its chapters with the definitions that they bring."""

    def __init__(self, house: House, chapters: list[Chapter], made: Shapes, order: list[str], examples: list[Example],
                 notes: list[tuple[str, str]], headed: dict[str, Headed], below: dict[str, list[Made]], files: dict[str, list[str]]):
        self.house, self.chapters, self.made, self.order = house, chapters, made, order
        self.examples, self.notes, self.headed, self.below, self.files = examples, notes, headed, below, files
        self.kinds = {one: kind_of(house.definition(one)) for chapter in chapters for one in chapter.brings}
        self.number = {id(chapter): number for number, chapter in enumerate(chapters, 1)}

    def file(self, chapter: Chapter) -> str:
        return '%02d-%s.md' % (self.number[id(chapter)], chapter.file)

    def page(self, chapter: Chapter) -> str:
        """Returns the page of a chapter."""
        text = '# %d. %s\n\n%s\n' % (self.number[id(chapter)], chapter.title, MADE) + self.words(chapter)
        text += ''.join(self.example(one) for one in self.examples if one.chapter == chapter.file)
        shown = {name for one in self.examples if one.chapter == chapter.file for name in one.names}
        by_kind = {kind: [one for one in chapter.brings if self.kinds[one] is kind] for kind in Kind}
        if not chapter.brings:
            return text
        text += '\n## Definitions\n\n' + wrap(self.count(by_kind)) + self.in_words(chapter)
        by_kind = {kind: [one for one in ones if one not in shown] for kind, ones in by_kind.items()}
        text += self.tables(by_kind[Kind.TABLE], chapter.text)
        return text + self.code('Rules', by_kind[Kind.RULE]) + self.code('Plumbing', by_kind[Kind.PLUMBING]) + self.needs(chapter)

    def words(self, chapter: Chapter) -> str:
        """Returns the text of a chapter: each section with what states its rules before its words, and with its tables behind them."""
        text, heading, at = '', chapter.sections[0][1] if chapter.sections else '', 0
        for found in [*HEADING.finditer(chapter.text), None]:
            text += self.section(heading, chapter.text[at:found.start() if found else None])
            if found:
                text, heading, at = text + found.group() + '\n', found.group(1), found.end()
        return re.sub(r'\n{3,}', '\n\n', text).strip('\n') + '\n'

    def section(self, heading: str, text: str) -> str:
        """Returns the text of a section below its heading."""
        stated = '\n' + stated_line(self.headed[heading]) if heading in self.headed else ''
        tables = ''.join(self.made_table(one) for one in self.below.get(heading, []))
        return stated + '\n' + for_readers(text).strip('\n') + '\n' + tables + '\n'

    def made_table(self, made: Made) -> str:
        """Returns a table of rules or of events, with a sentence before it."""
        one = named(self.made.index, *made.name.split(': '))
        if made.shape == 'rows':
            return '\nThe rules of %s, in the order in which they are tried:\n\n%s' % (cite(one), self.made.rows_table(one))
        return '\nThe events of %s:\n\n%s' % (cite(one), self.made.events_table(one))

    def needs(self, chapter: Chapter) -> str:
        """Returns what the definitions of a chapter use of other chapters."""
        inside = set(chapter.brings)
        used = {other for one in inside for other in self.house.used_by(one)[0]} - inside
        parts = []
        for other in self.chapters:
            names = sorted(one[1] for one in used & set(other.brings) if self.kinds[one] is not Kind.PLUMBING)
            parts += ['- [%s](%s): %s\n' % (other.title, self.file(other), ', '.join('`%s`' % name for name in names))] if names else []
        return '\n### From other chapters\n\n' + ''.join(wrap_item(part) for part in parts) if parts else ''

    def count(self, by_kind: dict[Kind, list[Name]]) -> str:
        words = {Kind.RULE: 'rules', Kind.TABLE: 'tables', Kind.PLUMBING: 'of plumbing'}
        parts = ['%d %s in %d lines' % (len(ones), words[kind], self.house.lines(set(ones))) for kind, ones in by_kind.items() if ones]
        parts = [re.sub(r'^1 (rule|table)s', r'1 \1', part) for part in parts]
        return ('This chapter is the first that needs these: %s. [How to read them](README.md#how-to-read-a-definition). A definition comes '
                'before those that it uses.' % ', '.join(parts))

    def in_words(self, chapter: Chapter) -> str:
        """Returns what the definitions of a chapter that are hardest to read say, taken together."""
        here = [(name, note) for name, note in self.notes if self.made.index.named(*name.split(': ')) in chapter.brings]
        return ''.join(['\n### In words\n\n'] * bool(here) + [wrap_item('- `%s`. %s' % (name, note)) for name, note in here])

    def example(self, example: Example) -> str:
        return '\n## %s: %s\n\n%s\n```agda\n%s```\n\n`%s`\n' % (
            example.heading, example.title, wrap(example.text), example.code, example.path)

    def tables(self, ones: list[Name], above: str) -> str:
        """Returns tables in their own shape: those of a file with the same cases as the columns of one table."""
        text = '\n### Tables\n' if ones else ''
        shown = [one for one in ones if one in self.made.shown]
        here = [one for one in shown if re.search(r'<!-- \w+ [^>]*\b%s\b' % one[1], above)]
        for where, names in (('The text above', here), ('Another chapter', [one for one in shown if one not in here])):
            text += '\n' + wrap('%s has these as tables: %s.' % (where, ', '.join(cite(one) for one in names))) if names else ''
        grouped: dict[tuple[str, tuple[str, ...]], list[Name]] = {}
        for one in [one for one in ones if one not in self.made.shown]:
            cases = tuple(left for left, _ in shapes.sides(one[1], self.house.definition(one).lines))
            plain = len(cases) > 2 and all(re.fullmatch(r'[\w.]+', case) for case in cases) and len(set(cases)) == len(cases)
            grouped.setdefault((one[0], cases if plain else (one[1],)), []).append(one)
        for (key, cases), names in grouped.items():
            text += '\n#### %s\n\n' % ', '.join(['`%s`' % names[0][0].replace('/specs/', ': specs/')] + ['`%s`' % name for _, name in names])
            if len(cases) == 1:
                text += '```agda\n%s```\n' % self.text_of(names[0])
                continue
            text += ''.join('- `%s`: %s\n' % (name, ' '.join(self.house.definition((key, name)).comment)) for _, name in names) + '\n'
            by_names = any(name.startswith('code_of_') for _, name in names)
            text += self.made.columns_table(names, [''] + ['`%s`' % name for _, name in names], by_names)
        return text

    def text_of(self, one: Name) -> str:
        """Returns the text of a definition, with its comment before it."""
        of = self.house.definition(one)
        return ''.join(('-- ' + line).rstrip() + '\n' for line in of.comment) + ''.join(line + '\n' for line in of.lines)

    def code(self, title: str, ones: list[Name]) -> str:
        """Returns the text of definitions, file by file, from the top down."""
        text = '\n### %s\n' % title if ones else ''
        for key in sorted({key for key, _ in ones}, key=self.order.index):
            inside = sorted((one for one in ones if one[0] == key), key=lambda one: -self.house.definition(one).number)
            text += '\n#### `%s`\n\n' % key.replace('/specs/', ': specs/')
            text += wrap_comment(self.comment_of(key)) + '\n' if title == 'Rules' and self.is_first(key, ones) else ''
            text += '```agda\n' + '\n'.join(self.text_of(one) for one in inside) + '```\n'
        return text

    def comment_of(self, key: str) -> list[str]:
        """Returns what a file says of itself, or what is said in its place."""
        return self.files.get(key.replace('/specs/', '/'), self.house.modules[key].comment)

    def is_first(self, key: str, ones: list[Name]) -> bool:
        """Returns whether these are of the chapter that is the first to have rules of a file."""
        first = next(chapter for chapter in self.chapters if any(one[0] == key and self.kinds[one] is Kind.RULE for one in chapter.brings))
        return ones[0] in first.brings

    def names(self) -> str:
        """Returns the page of all definitions by their names."""
        rows = []
        for chapter in self.chapters:
            for one in chapter.brings:
                rows.append([one[1], cite(one), '[%d](%s)' % (self.number[id(chapter)], self.file(chapter)), self.kinds[one].value])
        rows.sort(key=lambda row: (row[0].lower(), row[1]))
        return '# Where each definition is\n\n%s\n' % MADE + table(['Definition', 'Chapter', 'It is'], [row[1:] for row in rows])

    def types(self, types: set[Name]) -> str:
        """Returns the page of the types of the source."""
        rows = []
        for one in sorted(types, key=lambda one: (one[0], one[1])):
            of = self.house.types[one]
            rows.append(['`%s: %s`' % one, of.sentence(), '`%s`' % of.file, seen_as(of)])
        text = ('A definition names types of the source: enums and structs. This page has each of them, with the file where it stands. Where a '
                'type has a model, definitions see the value that the model makes of it, and none of its fields.')
        text = '# Types of the source\n\n%s\n' % MADE + wrap(text) + '\n' + table(['Type', 'What it is', 'File', 'Definitions see'], rows)
        return text + self.written(types)

    def written(self, types: set[Name]) -> str:
        """Returns how definitions write the forms of these types: behind which prefixes, and which of them under another name."""
        prefixes: dict[Name, set[str]] = {}
        others: dict[Name, set[str]] = {}
        for key in {key for key, _ in self.kinds}:
            for local, (target, name) in self.house.modules[key].imports.items():
                one = self.house.type_at((target, '')) if target.endswith('/TheVariants') or name is None else None
                if one in types and name is None:
                    prefixes.setdefault(one, set()).add('`%s.`' % local)
                elif one in types and local != name:
                    others.setdefault(one, set()).add('`%s` is `%s`' % (local, name))
        rows = [['`%s: %s`' % one, ', '.join(sorted(prefixes.get(one, ()))), ', '.join(sorted(others.get(one, ())))]
                for one in sorted(prefixes.keys() | others.keys())]
        text = ('A definition writes a form of a type alone, as `Bought`, or behind a prefix, as `event.Bought`: these are the same. Some files '
                'give a form another name, where two types have forms of one name.')
        return '\n## How forms are written\n\n' + wrap(text) + '\n' + table(['Type', 'Prefixes', 'Other names'], rows)

    def chapters_table(self) -> str:
        """Returns the table of chapters, with what each brings."""
        rows = []
        for chapter in self.chapters:
            counts = Counter(self.kinds[one] for one in chapter.brings)
            lines = self.house.lines({one for one in chapter.brings if self.kinds[one] is Kind.RULE})
            rows.append(['%d' % self.number[id(chapter)], '[%s](%s)' % (chapter.title, self.file(chapter))]
                        + ['%d' % counts[kind] for kind in Kind] + ['%d' % lines])
        return table(['', 'Chapter', 'Rules', 'Tables', 'Plumbing', 'Lines of rules'], rows)


def seen_as(of) -> str:
    """Returns what definitions see of a type: the value of its model, its variants or its fields."""
    if of.value:
        return '`%s`' % of.value
    inside = [line.partition('//')[0].rstrip() for line in of.lines if not line.strip().startswith(('//', '#'))]
    text = ' '.join(' '.join(inside).split())
    if re.search(r'\benum\b', text):
        names = re.findall(r'(?:^|[{,] )([A-Z]\w*)(?=[ ,({}]|$)', re.sub(r'\([^()]*\)|(?<=\w) \{[^{}]*\}', '', text.partition('{')[2]).replace('{', '{ '))
        first = re.match(r' ?([A-Z]\w*)', text.partition('{')[2])
        names = ([first.group(1)] if first and first.group(1) not in names else []) + names
        return 'its variants, %d' % len(names) if len(names) > 12 else ', '.join(names)
    fields = re.findall(r'(?:pub(?:\([^)]*\))? )?(\w+): ', text)
    return ', '.join(fields) if fields else 'its value'


def library_page(library: set[Name], words: dict[str, tuple[str, str]]) -> str:
    """Returns the page of the words of the kit's library."""
    used: dict[str, str] = {}
    for module, name in sorted(library):
        used.setdefault(name, module)
    rows = [['`%s`' % words[name][0].replace('|', '\\|'), words[name][1], '`%s`' % used[name].replace('/', '.')] for name in words if name in used]
    text = ('Definitions use these words of the kit\'s library, `std`. This page says what each means; what the library itself says of it is '
            'trusted with the kit.')
    return '# Words of the library\n\n%s\n' % MADE + wrap(text) + '\n' + table(['Word', 'Meaning', 'From'], rows)


def claims_table(rows: list[tuple[str, set[str], Reach]], house: House, all_definitions: int, all_lines: int) -> str:
    """Returns the counts of what the claims rest on: of each its title, its clauses, and what these reach."""
    shown = []
    for title, clauses, reach in rows:
        kinds = Counter(kind_of(house.definition(one)) for one in reach.definitions)
        lines = {kind: house.lines({one for one in reach.definitions if kind_of(house.definition(one)) is kind}) for kind in Kind}
        shown.append([title, '%d' % len(clauses), '%d' % len(reach.definitions), '%d' % house.lines(reach.definitions)]
                     + ['%d (%d)' % (kinds[kind], lines[kind]) for kind in Kind] + ['%d' % len(reach.types), '%d' % len(reach.library)])
    shown.append(['all of `specs/`', '', '%d' % all_definitions, '%d' % all_lines, '', '', '', '', ''])
    return table(['Claim', 'Clauses', 'Definitions', 'Lines', 'Rules', 'Tables', 'Plumbing', 'Types', 'Words of the library'], shown)
