#!/usr/bin/env python3
"""The tests of tools/rulebook and tools/specs.py. The last line is 'N passed, M failed'."""
from __future__ import annotations

import os
import sys
import tempfile
import unittest

sys.dont_write_bytecode = True
sys.path.insert(0, os.path.dirname(os.path.dirname(os.path.abspath(__file__))))
import specs  # noqa: E402
from rulebook import chapters, claims, examples, kinds, pages, reach, shapes, sources, terms  # noqa: E402

RULES = '''-- What a sale is.
use Rattle.std.specs.Prelude.{ℕ, ◌+◌, ◌==◌, Bool, true, false, not, List, [], ◌∷◌, ◌++◌, Option, Some, None, codes}
use Rattle.shop.specs.declared.rule.SaleRule.TheVariants.{Empty, Late}
use Rattle.shop.specs.declared.event.Event.{Event}
use Rattle.shop.specs.declared.event.Event.TheVariants as event
use Rattle.shop.specs.declared.kind.Kind.TheVariants.{
  Small,
  Large,
}

-- a rule and whether it is broken
pub record Rule (Code : Type 0) : Type 0 where
  pub code : Code
  pub broken : Bool

-- the code of a rule
abbrev pub code_of : SaleRule → List ℕ
code_of Empty = codes "S1"
code_of Late = codes "S2"

-- the sentence of a rule
abbrev pub sentence_of : SaleRule → List ℕ
sentence_of Empty = codes "it sells nothing: " ++ codes "a price, say"
sentence_of Late = codes "it is late"

-- what a kind costs
unfoldable pub price : Kind → ℕ
price Small = 5
price Large = 10

-- nothing is sold
abbrev pub is_empty : ℕ → Bool
is_empty count = count == 0

-- a count, if there is one
abbrev pub count_in : Option ℕ → ℕ
count_in None = 0
count_in (Some price) = counted price

-- one more
abbrev pub counted : ℕ → ℕ
counted price = price + 1

-- the rules of a sale
abbrev pub sale_rules : ℕ → Bool → List (Rule SaleRule)
sale_rules count late =
    record { code = Empty; broken = is_empty (counted count) }
    ∷ record { code = Late; broken = not (late) }
    ∷ []

-- after it is paid
abbrev pub paid : List Event → List Event
paid events = events ++ event.Paid ∷ []

-- after the sale
abbrev pub sold : List Event → List Event
sold events = (paid (events ++ event.Sold ∷ [])) ++ event.Closed ∷ []

module _ (count : ℕ) where
  -- more than this
  abbrev pub over : ℕ → Bool
  over other = not (other == count)
'''
SOURCE = '''ghost use Rattle.shop.specs.Rules.{is_empty};
ghost use Rattle.std.specs.Prelude.{◌≡◌};

/// What happened.
pub enum Event {
    /// It was paid.
    Paid,
    /// It was sold.
    Sold(Kind),
    Closed,
}

/// A basket. It has things.
pub struct Basket {
    things: Vec<Kind>,
}

impl Model for Basket {
    ghost Value = { List Kind };
    ghost view = { λ basket. basket.things.items };
}

/// A kind of thing.
pub enum Kind {
    Small,
    Large,
}

pub enum SaleRule {
    Empty,
    Late,
}

impl Basket {
    /// Returns whether it is empty.
    pub fn is_empty(&self, kind: Kind) -> bool
        ensures { result ≡ is_empty self.now }
    {
        true
    }
}
'''


def shop() -> reach.House:
    """Returns a house of one crate."""
    with tempfile.NamedTemporaryFile('w', suffix='.antt', encoding='utf-8') as file:
        file.write(RULES)
        file.flush()
        module = specs.read_module(file.name, 'shop', 'Rules')
    types = {('shop', one.name): one for one in sources.types_of('shop', 'crates/shop/src/lib.rt', SOURCE)}
    return reach.House({'shop/specs/Rules': module}, types, {'shop': []})


def named(name: str) -> reach.Name:
    return 'shop/specs/Rules', name


class TestFiles(unittest.TestCase):
    """What is read of a file of definitions, and of a source."""

    def test_definitions(self):
        module = shop().modules['shop/specs/Rules']
        self.assertEqual(list(module.definitions), ['Rule', 'code_of', 'sentence_of', 'price', 'is_empty', 'count_in', 'counted', 'sale_rules', 'paid', 'sold', 'over'])
        self.assertEqual(module.definitions['price'].comment, ['what a kind costs'])
        self.assertEqual(len(module.definitions['sale_rules'].lines), 5)
        self.assertEqual(module.definitions['over'].lines[1], 'over other = not (other == count)')

    def test_imports_on_several_lines(self):
        self.assertEqual(shop().modules['shop/specs/Rules'].imports['Large'], ('shop/specs/declared/kind/Kind/TheVariants', 'Large'))

    def test_types(self):
        types = shop().types
        self.assertEqual(types[('shop', 'Basket')].value, 'List Kind')
        self.assertEqual(types[('shop', 'Basket')].sentence(), 'a basket')
        self.assertEqual(set(types), {('shop', name) for name in ('Event', 'Basket', 'Kind', 'SaleRule')})
        self.assertEqual(shapes.variant_comments(types[('shop', 'Event')]), {'Paid': 'It was paid.', 'Sold': 'It was sold.'})

    def test_contract(self):
        contract = sources.contract('shop', 'lib.rt', SOURCE, 'is_empty')
        found = reach.Reach(shop())
        found.add_contract(contract)
        self.assertEqual(found.definitions, {named('is_empty')})
        self.assertEqual(found.types, {('shop', 'Kind')})
        self.assertIsNone(sources.contract('shop', 'lib.rt', SOURCE, 'is_full'))


class TestWords(unittest.TestCase):
    """Which words a definition uses."""

    def test_bound_names_are_no_words(self):
        used = terms.words('f', ['abbrev pub f : A → B', 'f (Some x) y = g x (λ z. h z) (let w = k y in w)'], False)
        self.assertEqual(used & {'x', 'y', 'z', 'w', 'f'}, set())
        self.assertLessEqual({'g', 'h', 'k', 'A', 'B', 'Some'}, used)

    def test_texts_and_labels_are_no_words(self):
        used = terms.words('f', ['abbrev pub f : A', 'f = record { price = g; code = codes "paid in full" }'], False)
        self.assertEqual(used & {'price', 'code', 'paid', 'full'}, set())
        self.assertLessEqual({'g', 'codes'}, used)

    def test_fields_behind_a_bracket_are_no_words(self):
        self.assertNotIn('game', terms.words('f', ['abbrev pub f : A', 'f = (g h).game'], False))


class TestReach(unittest.TestCase):
    """What a definition rests on."""

    def test_from_rules(self):
        found = reach.Reach(shop())
        found.add([named('sale_rules')])
        self.assertEqual({name for _, name in found.definitions}, {'sale_rules', 'is_empty', 'counted', 'Rule'})
        self.assertEqual(found.types, {('shop', 'SaleRule')})
        self.assertLessEqual({'not', '◌∷◌', '[]', '◌==◌', '◌+◌', 'List'}, {name for _, name in found.library})
        self.assertNotIn('◌++◌', {name for _, name in found.library})

    def test_a_model_hides_fields(self):
        found = reach.Reach(shop())
        found.add([], {('shop', 'Basket')})
        self.assertEqual(found.types, {('shop', 'Basket'), ('shop', 'Kind')})


    def test_files_by_name(self):
        found = reach.files_by_name({('shop/specs/Rules', 'sold'), ('bank/specs/Rules', 'sold'), ('shop/specs/Rules', 'price')})
        self.assertEqual(found, {'price': ['shop/specs/Rules'], 'sold': ['bank/specs/Rules', 'shop/specs/Rules']})


class TestKinds(unittest.TestCase):
    """Which of the three a definition is."""

    def test_kinds(self):
        definitions = shop().modules['shop/specs/Rules'].definitions
        self.assertEqual({name: kinds.kind_of(of).value for name, of in definitions.items()}, {
            'Rule': 'rule', 'code_of': 'table', 'sentence_of': 'table', 'price': 'table', 'is_empty': 'rule', 'count_in': 'plumbing', 'counted': 'rule',
            'sale_rules': 'rule', 'paid': 'rule', 'sold': 'rule', 'over': 'rule'})

    def test_nothing_that_says_something_is_a_rule(self):
        of = specs.Definition('shop', 'Rules', 'counts_on', 1, [])
        of.lines = ['abbrev pub counts_on : Option Square → Bool', 'counts_on None = true', 'counts_on (Some square) = is_white square']
        self.assertIs(kinds.kind_of(of), kinds.Kind.RULE)


class TestShapes(unittest.TestCase):
    """Rows, events and tables."""

    def setUp(self):
        self.house = shop()
        reached = {named(name) for name in self.house.modules['shop/specs/Rules'].definitions}
        self.house.types[('events', 'Event')] = self.house.types[('shop', 'Event')]
        self.shapes = shapes.Shapes(self.house, chapters.Index(self.house, reached))

    def test_rows(self):
        rows = self.shapes.rows(named('sale_rules'))
        self.assertEqual([(row.code, row.sentence) for row in rows], [('S1', 'it sells nothing: a price, say'), ('S2', 'it is late')])
        self.assertEqual([row.test for row in rows], ['`shop: is_empty`', 'not `late`'])

    def test_short_rows(self):
        entries = shapes.ENTRY.finditer('tested_run_rule NoTrack (is_none (walk of)) ∷ rules_of_walk (walk of)')
        self.assertEqual([entry.group('short', 'term') for entry in entries if entry['short']], [('NoTrack', '(is_none (walk of))')])

    def test_events_from_the_inside_out(self):
        self.assertEqual([step.word for step in self.shapes.steps(named('sold'))], ['SOLD', 'PAID', 'CLOSED'])

    def test_forms_keep_their_meanings(self):
        made = self.shapes
        made.forms = lambda one: ['SELL co n', 'PAY']
        page = '<!-- forms shop: price -->\n| `PAY` | pay it |\n<!-- end -->\n'
        self.assertIn('| `SELL co n` | ? |\n| `PAY` | pay it |\n', pages.with_blocks(page, made))

    def test_repeats(self):
        one, two = self.shapes.steps(named('paid'))[0], self.shapes.steps(named('sold'))[0]
        self.assertEqual(shapes.without_repeats([one, two, one, two, one, one]), [one, two, one])

    def test_columns(self):
        self.assertEqual(self.shapes.columns_table([named('price')], ['Kind', 'Price']),
                         '| Kind | Price |\n|---|---|\n| small | 5 |\n| large | 10 |\n')

    def test_columns_of_any_other_case(self):
        self.house.definition(named('price')).lines[1:] = ['price Small = 5', 'price other = 10']
        self.assertEqual(self.shapes.columns_table([named('price')], ['Kind', 'Price']),
                         '| Kind | Price |\n|---|---|\n| small | 5 |\n| large | 10 |\n')

    def test_made_again(self):
        page = 'A\n<!-- columns shop: case = Kind; price = Price -->\nold\n<!-- end -->\nB\n'
        self.assertIn('| large | 10 |\n<!-- end -->\nB', pages.with_blocks(page, self.shapes))
        with self.assertRaises(ValueError):
            pages.with_blocks('<!-- chart shop: no_such_chart -->\n<!-- end -->\n', self.shapes)


class TestClaims(unittest.TestCase):
    """The table of sentences and clauses."""

    PAGE = ('<!-- Clauses of the claims. -->\n\n| Claim | Sentence | Clauses |\n|---|---|---|\n%s\n<!-- End of the clauses. -->\n')

    def test_a_row_without_a_title_is_of_the_claim_above(self):
        found = claims.read_claims(self.PAGE % '| `run`: it | a | `shop: sold` |\n| | b | `shop: paid`, `shop: sold` |\n| told | c | `desk: told` |\n')
        self.assertEqual(found, [claims.Claim('`run`: it', ['shop: sold', 'shop: paid']), claims.Claim('told', ['desk: told'])])
        self.assertEqual([claim.is_umpires() for claim in found], [True, False])

    def test_each_sentence_has_a_clause(self):
        for page in ('no table', self.PAGE % '| `run` | a | in words |\n', self.PAGE % '| | a | `shop: sold` |\n'):
            with self.assertRaises(ValueError):
                claims.read_claims(page)


class TestChapters(unittest.TestCase):
    """The text and the definitions of a chapter."""

    PAGE = '# Title\n\n## One\n\ntext\n\n```\n# no heading\n```\n\n### Inner\n\nmore\n\n## Two\n\nlast\n'

    def test_section(self):
        self.assertEqual(chapters.section(self.PAGE, 'One'), 'text\n\n```\n# no heading\n```\n\n### Inner\n\nmore\n')
        self.assertEqual(chapters.section(self.PAGE, 'Two'), 'last\n')
        with self.assertRaises(ValueError):
            chapters.section(self.PAGE, 'Three')

    def test_the_first_that_needs_it(self):
        house = shop()
        reached = {named(name) for name in house.modules['shop/specs/Rules'].definitions}
        page = '## Sales\n\n(`shop: sale_rules`)\n\n## Counts\n\n`shop: counted` and `sold`\n\n## Rest\n\n'
        listed = [chapters.Chapter(title, title, [('page', title)]) for title in ('Sales', 'Counts', 'Rest')]
        chapters.fill(listed, {'page': page}, chapters.Index(house, reached), {'Rest': [named('price')]}, {})
        brings = [{name for _, name in chapter.brings} for chapter in listed]
        self.assertEqual(brings, [{'sale_rules', 'is_empty', 'Rule'}, {'counted', 'sold', 'paid'}, {'price', 'count_in', 'over', 'code_of', 'sentence_of'}])

    def test_what_states_a_section_is_of_its_chapter(self):
        house = shop()
        reached = {named(name) for name in house.modules['shop/specs/Rules'].definitions}
        listed = [chapters.Chapter(title, title, [('page', title)]) for title in ('Sales', 'Counts')]
        stated = {'Counts': ['shop: price'], 'Inner': ['shop: sold']}
        chapters.fill(listed, {'page': '## Sales\n\nIt is so.\n\n### Inner\n\n## Counts\n'}, chapters.Index(house, reached), {}, stated)
        self.assertEqual([{name for _, name in chapter.brings} & {'sold', 'price'} for chapter in listed], [{'sold'}, {'price'}])

    def test_words_of_a_chapter(self):
        house = shop()
        index = chapters.Index(house, set())
        chapter = chapters.Chapter('sales', 'Sales', [('page', 'Sales')], text='See [it](#sales), [more](map.md#x).\n\n### Inner\n\nMore.\n')
        headed = {'Inner': chapters.Headed('shop: price', 'shop: is_empty', 'first')}
        below = {'Sales': [chapters.Made('rows', 'shop: sale_rules')]}
        book = pages.Book(house, [chapter], shapes.Shapes(house, index), [], [], [], headed, below, {})
        self.assertRegex(book.words(chapter), r'(?s)^See \[it\]\(../players/rules.md#sales\), \[more\]\(../players/map.md#x\).\n\n'
                         r'The rules of `shop: sale_rules`.*\| S2 \| it is late \| not `late` \|.*\n\n### Inner\n\n'
                         r'Definition `shop: price` · function `shop: is_empty` · game \[`first`\].*\n\nMore\.\n$')

    def test_example(self):
        text = '-- Example for the chapter `sales`: a sale.\n-- Two are sold.\nuse Rattle.shop.specs.Rules.{price}\n\nabbrev pub it : Kind\nit = Small\n\n-- five\npub small : price it ≡ 5\nunfolding price\n    it\nsmall = refl\n'
        found = examples.read_example('crates/shop/proofs/Example.antt', text)
        self.assertEqual((found.chapter, found.title, found.text, found.code), ('sales', 'a sale', 'Two are sold.', 'it : Kind\nit = Small\n\n-- five\nsmall : price it ≡ 5\n'))
        self.assertIsNone(examples.read_example('p', '-- no example\n'))


def main() -> int:
    result = unittest.TestResult()
    unittest.defaultTestLoader.loadTestsFromModule(sys.modules[__name__]).run(result)
    wrong = result.failures + result.errors
    failed = len(wrong)
    print(''.join('%s\n%s' % (test, told) for test, told in wrong), end='')
    print('%d passed, %d failed' % (result.testsRun - failed, failed))
    return 1 if failed else 0


if __name__ == '__main__':
    sys.exit(main())
