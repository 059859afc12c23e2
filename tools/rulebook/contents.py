"""What the rulebook has: its chapters in the order of the game, its notes, and the laws that it shows."""
from __future__ import annotations

from rulebook.chapters import Chapter, Headed, Made
from rulebook.examples import Law


# What states the rules of each section of rules.md from "The game" to the house rules.
HEADED = {
    'The game': Headed('rounds: Plays', 'rounds: play_with', 'codes/ROUND-SR1-after-the-opening'),
    'The end after a broken bank': Headed('rounds: following', 'rounds: next', 'end-of-the-bank'),
    'The end by a bankruptcy': Headed('rounds: coming', 'rounds: coming', 'codes/END-BANKRUPT'),
    'What each player is worth': Headed('report: worth_of', 'report: player_worth', 'codes/END-BANKRUPT'),
    'Players and money': Headed('totals: cash_of', 'totals: cash', 'first-round'),
    'Privates': Headed('totals: owner_of', 'totals: owner', 'codes/REVENUE-in-roster-order'),
    'The shares that come with CA and BOP': Headed('privates: gifts', 'privates: sell_baltimore', 'codes/GIVEN-PRR-with-CA'),
    'Companies and their shares': Headed('totals: shares_of', 'totals: shares', 'codes/BOUGHT-from-the-pool'),
    'Presidents': Headed('certs: successor_of', 'certs: successor', 'codes/PRESIDENT-strictly-more'),
    'When a company floats': Headed('stock_round: with_float', 'stock_round: record_float', 'codes/FLOATS-at-four-left'),
    'Counted certificates': Headed('certs: counted_of', 'certs: counted', 'codes/PLAYER-yellow-certificates'),
    'The market': Headed('market: fallen', 'market: fall', 'codes/SELLS-several-shares'),
    'Trains and phases': Headed('totals: phase_of', 'totals: phase', 'codes/TRADED-a-4-for-the-first-D'),
    'Priority': Headed('totals: priority_of', 'totals: priority', 'codes/ROUND-priority-at-the-left'),
    'Conditions': Headed('history: holds', 'history: is_met', 'codes/I1-PRICE-in-a-stock-round'),
    'Bids': Headed('privates: bid_rules', 'privates: judge', 'codes/A4-under-5-above-a-bid'),
    'When a private is sold': Headed('privates: settled', 'privates: settle_all', 'codes/SOLD-in-a-chain'),
    'Auctions': Headed('privates: auction_of', 'privates: auction', 'codes/SOLD-by-auction'),
    'The price of an auction': Headed('privates: price_among', 'privates: price_paid', 'codes/SOLD-by-auction-limit-over-the-cash'),
    'Standing lines of an opening': Headed('privates: opening_standing_ruling', 'privates: judge_standing', 'codes/PAR-by-a-standing-line'),
    'An opening round': Headed('privates: IsOpeningRound', 'privates: play_opening', 'codes/ROUND-one-after-another'),
    'What becomes of a line of an opening': Headed('privates: opening_judgement', 'privates: judge', 'codes/A3-not-the-cheapest'),
    'A stock round': Headed('stock_round: IsStockRound', 'stock_round: play_stock', 'codes/ROUND-SR1-after-the-opening'),
    'What becomes of a line of a stock round': Headed('stock_round: stock_judgement', 'stock_round: judge', 'codes/S9-started-or-not'),
    'Buying shares': Headed('certs: share_purchase_rules', 'certs: may_buy', 'codes/BOUGHT-from-the-pool'),
    'Sales': Headed('certs: sale_rules', 'certs: may_sell', 'codes/SELLS-several-shares'),
    'The exchange of MH': Headed('stock_round: is_no_exchange', 'stock_round: is_no_exchange', 'codes/EXCHANGED-before-NYC-is-started'),
    'An operating round': Headed('rounds: IsOperatingRound', 'rounds: play_operating', 'codes/REVENUE-in-an-operating-round'),
    "A company's turn": Headed('operating: IsCompanyTurn', 'operating: play_company', 'codes/WITHHELD-by-itself'),
    'The home token': Headed('operating: with_home', 'operating: place_home', 'codes/HOME-in-operating-order'),
    'The steps of a turn': Headed('board: place_of_step', 'operating: is_past_runs', 'codes/R1-after-the-pay-step'),
    "What becomes of a line of a company's orders": Headed('operating: ReadingLeads', 'operating: rule_lines', 'codes/G6-stock-orders-in-a-companys-orders'),
    'What a company reaches': Headed('reach: IsReach', 'reach: reached', 'codes/L9-not-reached'),
    'The Gulf and the Canadian West': Headed('map_tables: joined_stop_of', 'map_tables: joined_stop', 'codes/R5-two-parts-of-the-gulf'),
    'Lays': Headed('board: lay_rules', 'board: try_lay', 'codes/LAID-terrain-is-paid'),
    'The lay of CS': Headed('board: is_cs_lay', 'board: is_cs_lay', 'codes/LAID-CS-beside-the-lay'),
    'The lay and the token of DH': Headed('board: is_dh_lay', 'board: is_dh_token', 'codes/TOKEN-of-DH-for-nothing'),
    'Tokens': Headed('board: token_rules', 'board: try_token', 'codes/TOKEN-40-then-100'),
    'The kept slot of a home': Headed('board: kept_at', 'board: kept_at', 'codes/K3-no-free-slot'),
    'Runs': Headed('legal_runs: IsLegalRun', 'legal_runs: check_run', 'codes/RUNS-add-up'),
    'RUN BEST': Headed('legal_runs: IsGreatest', 'operating: rule_best', 'codes/RUNS-best-of-two-trains'),
    'The check of a best revenue': Headed('certificate: IsAcceptedClaim', 'certificate: accepts', 'certificates/verify-two-trains'),
    'Dividends': Headed('certs: paid_out', 'certs: pay_out', 'codes/DIVIDEND-who-is-paid'),
    'Consent': Headed('totals: has_consent', 'totals: has_consent', 'codes/T4-no-consent'),
    'Offers': Headed('purchases: offer_rules', 'purchases: judge_offer', 'codes/T4-an-offer-of-another-player'),
    'Buying trains': Headed('purchases: train_purchase_rules', 'purchases: judge_purchase', 'codes/TRAIN-from-a-company'),
    'The train that a company must buy': Headed('forced_purchase: after_forced', 'forced_purchase: buy_by_force', 'codes/AID-of-a-president'),
    'RAISE lines': Headed('forced_purchase: raise_judgement', 'forced_purchase: judge_raise', 'codes/S4-of-RAISE'),
    'Privates that companies buy': Headed('purchases: private_rules', 'purchases: judge_private', 'codes/PRIVATE-anywhere-in-a-companys-orders'),
    'A new phase': Headed('purchases: with_phase', 'purchases: begin_phase', 'codes/RUSTED-at-the-first-4'),
    'Which trains are given up': Headed('purchases: next_discard', 'purchases: next_discard', 'codes/DISCARDED-by-a-standing-line'),
}

# The tables behind the words of a section of rules.md: the rules of an order, and the events of an act.
TABLES = {
    'Standing lines of an opening': [Made('rows', 'privates: limit_rules'), Made('rows', 'privates: par_rules')],
    'What becomes of a line of an opening': [
        Made('rows', 'privates: private_purchase_rules'),
        Made('rows', 'privates: bid_rules'),
        Made('events', 'privates: after_private_sale')],
    'Buying shares': [
        Made('rows', 'certs: share_purchase_rules'),
        Made('events', 'stock_round: after_start'),
        Made('events', 'stock_round: after_purchase')],
    'Sales': [Made('rows', 'certs: sale_rules'), Made('events', 'certs: after_sale')],
    'The exchange of MH': [Made('rows', 'stock_round: exchange_rules'), Made('events', 'stock_round: after_exchange')],
    'Lays': [Made('rows', 'board: lay_rules'), Made('events', 'operating: after_lay')],
    'Tokens': [Made('rows', 'board: token_rules'), Made('events', 'operating: after_token')],
    'Runs': [Made('rows', 'operating: rules_of_turn'), Made('rows', 'legal_runs: rules_of_run')],
    'Dividends': [Made('rows', 'operating: pay_rules'), Made('events', 'certs: paid_out'), Made('events', 'operating: withheld')],
    'Offers': [Made('rows', 'purchases: offer_rules')],
    'Buying trains': [Made('rows', 'purchases: train_purchase_rules'), Made('events', 'purchases: after_train')],
    'Privates that companies buy': [Made('rows', 'purchases: private_rules'), Made('events', 'purchases: private_bought')],
    'Which trains are given up': [Made('rows', 'purchases: discard_rules')],
}

# What the definitions that are hardest to read say, taken together, in the chapter that brings the first of them.
NOTES: list[tuple[str, str]] = [
    ('rounds: Plays', 'A game is found and not made: some number of rounds leads from before the first to its end, each by `IsRound`, '
     'and at the end a seat has no sheet, or nothing comes next. `OneGame` and `SomeGame` below say that there is exactly one.'),
    ('totals: last_said', '`last_said says events` is what `says` gives of the last event of which it gives anything. `now_said` is the same '
     'for things that may also come to nothing: the last event that speaks of it may say so. `in_round` lets the event that begins a round '
     'say so, and what is left is what was said since.'),
    ('tables: Ends', 'What repeats until it is over: some number of steps leads there, it is over then, and after fewer it was not. '
     '`after_turn` is one step of a round of turns: the seat takes its next written turn, or none. The next seat to the left follows, and '
     '`turns_over` asks whether all have passed in succession.'),
    ('turns: line_ruling', 'A ruling is made by `judged`: the first rule that is broken refuses the line, otherwise it is obeyed. `order_obeyed` '
     'is the order that is then to be done, and `done` does it. Each round and each company ends its lines in this way.'),
    ('privates: with_limit', 'The second limit is the greatest of those who do not win. The winner is known by the bid, since no two bids on a '
     'private are equal.'),
    ('operating: LinesLead', 'Line after line, each leading from the turn before it to the turn after it. A line with a fault ends in '
     '`ReadingLeads`, one whose condition does not hold in `AskedLeads`, and an order in `OrderLeads`, by its own definition.'),
    ('board: IsLayAnswer', '`reached` is a value fixed by `exact`: if none of the rules before L9 is broken, it is true exactly if the company '
     'reaches some track of the hex, old or new, or a stop of it. Then the answer is the first rule that is broken, or the cost. If one of those rules is broken, `reached` '
     'does not matter.'),
    ('board: IsTokenAnswer', '`reached` is true exactly if the company reaches the place, where none of the rules before K5 is broken.'),
    ('legal_runs: walk_named', 'The train begins at the stop of the first place. `leg_to` is the step or the two steps to the next place, if '
     'there is such track, and `travelled` goes on from there. `with_leg` adds the steps to what was made so far: here a walk, in which '
     '`taken` puts the latest step first. If a leg is missing, or the last place has no stop, there is no walk.'),
    ('legal_runs: visited', 'Steps are listed last to first. So `visited` goes backwards: of each step the stop at which it is left, and of the '
     'first step also the stop at which it is entered. `crossed` has the border over which each step is entered.'),
    ('legal_runs: border_of', 'A border has one number: three times the place of a hex, and the number of its side 0, 1 or 2. At a side 3, 4 or '
     '5 it is a border of the hex beyond. Sides at the edge of the map have numbers, too, which may be those of other borders, but no walk '
     'crosses them.'),
    ('operating: RunsOfTurn', 'What the trains have done in a turn: how many of each kind have run, a mark for each of the 279 numbers of borders, '
     'and what was earned. `borders_used` is the list of the numbers that are marked.'),
    ('purchases: discard_lines_left', 'Which DISCARD lines are left is found by going over the events once. `Lines` is whether the seat presides then, '
     'and its lines that are left. A round begins without any, an obeyed line is added at the end, and a train that the company gives up '
     'while the seat presides uses up the first line of its kind.'),
    ('order_grammar: rows_reading', 'A line is tried by all forms that begin with its first word. The nearest to an order counts: an order, then '
     'one with a number too large (G5), then other words (G4). Without such a form it is G3.'),
    ('report: rounds_in', 'The events are cut before each that begins a round. The list is read from its end: an event joins the round behind '
     'it, unless that begins with a ROUND event.'),
    ('operating: Course', 'A course leads from somewhere to somewhere else, or to a fault, and makes calls of whoever answers RUN BEST. `Then` is '
     'one course after another, with the calls of both, and `SomeTimesThen` some number of the first before the second.'),
    ('certificate: Hold', 'Marks hold at a node in two ways. `cut`: the mark is 0, and the bound of the node is at most the claimed revenue. '
     '`split`: the first mark is 1, the node is no leaf, and the marks behind it hold at its children, one after the other (`HoldInTurn`).'),
    ('umpire: from_divider', 'Of all lines `CERTS 1` the last counts: the text is looked at from each of its bytes that begins a line, and what '
     'lies further back comes first in `option_or`.'),
]

# What is said of a file of specs/ in the place of its own comment, which speaks of more than the chapters have.
FILES = {
    'reach/Walk': ['Walks over the track of a position. A link joins two ends in one hex, each a side of the hex or a stop. A walk is a list of '
                   'links. Steps are listed last to first. Each link is entered at one of its ends and left at the other, and is joined to the next at a '
                   'stop, or at the border between their two hexes.'],
    'certificate/Holding': ['Which marks hold at a node (`Hold`), and how marks are read over a list of nodes that lie ahead (`left_over`).'],
}

# A sentence for each definition whose own comment only has a meaning beside its neighbours, or that has none.
SENTENCES = {
    'certificate: for_each': 'what a function gives for each of some things, one list after the other',
    'desk_base: objection_at_side': 'what is said against a tile for a side at which its track would be bad; nothing if there is no such side',
    'desk_base: objection_by': 'that another player presides, if one does',
    'desk_check: begun_by': 'where the lines stand after the head of a turn, or of a company\'s orders',
    'desk_check: begun_with': 'the lines on which orders begin, and the one of this company, unless its orders began before',
    'desk_check: block_by': 'where the orders of a company stand after one that has a place in their sequence',
    'desk_check: passed_by': 'the rule that an order breaks since its step is past, if it has such a rule',
    'desk_check: presided': 'what is said of the head of a company\'s orders by the game in which the round begins, if that is known',
    'desk_check: presided_by': 'that another player presides over the company, if one does',
    'desk_check: replacing_if': 'the sheet that a later one replaces, if it replaces one',
    'desk_check: said_of_head': 'what is said of the head of a turn or of a company\'s orders',
    'desk_check: said_of_order': 'what is said of an order',
    'map_tables: always': 'a value that is the same before and from phase 5',
    'market: moved_from': 'the list with MOVES, if the token leaves the square that it is on',
    'markup: read_at': 'what a reader finds from this place on, while these elements are open',
    'moves: only_if': 'a list if something is true, otherwise the empty list',
    'moves: private_order': 'the order by which a company buys a private at a price',
    'moves: train_order': 'the order by which a company buys a train of a kind from a source',
    'moves: IsExact': 'a list has a thing with a price exactly if the rules give that price for it',
    'privates: is_the': 'there is a private, and it is this one',
    'purchases: is_kind': 'there is a kind, and it is this one',
    'report: is_the_round': 'there is a round, and it is this one',
    'legal_runs: is_hex': 'a hex is the one that is looked for',
    'rounds: with_round': 'a list of rounds, behind one more if there is one',
    'totals: now_said': 'what holds now: what the last event that speaks of it says, which may be that nothing does',
}

# Laws beside the definitions, which are proved, and examples that the crates of the rules state as laws. The examples of crates/rulebook
# say themselves which chapter they belong to.
LAWS = [
    Law('the-game', 'a file has one game', 'rounds/specs/Play', ('OneGame', 'SomeGame'), ('one_game', 'some_game'), 'Proved'),
    Law('companies', 'who presides', 'certs/specs/President', ('HaveAtMost', 'IsFirstWithMost', 'FirstWithMostPresides'),
        ('first_with_most_presides',), 'Proved'),
    Law('bids', 'who wins an auction, in other words', 'privates/specs/Auction',
        ('EachBidder', 'BidsDiffer', 'LimitsHold', 'IsAmong', 'IsAhead', 'AreOthers', 'IsOneOf', 'NoneIsOver', 'IsGreatest', 'IsWon',
         'AuctionIsWon'), ('auction_is_won',), 'Proved'),
    Law('runs', 'the rules of a run and what a legal run is say the same', 'legal_runs/specs/Law',
        ('NameLegalRun', 'LegalWhereNoRuleIsBroken', 'AreItsPlaces', 'EachLegalRunIsNamed'), ('legal_where_no_rule_is_broken', 'each_legal_run_is_named'), 'Proved'),
    Law('best-runs', 'there is one greatest revenue', 'legal_runs/specs/Greatest', ('AGreatestExists', 'OneGreatest'),
        ('a_greatest_exists', 'one_greatest'), 'Proved'),
    Law('certificates', 'a certificate that is accepted shows the greatest revenue', 'certificate/specs/HoldingLaws', ('AcceptedIsGreatest',),
        ('accepted_is_greatest',), 'Proved'),
    Law('before-a-round', 'a lay or a token is listed with a price exactly if the rules allow it at that price', 'moves/specs/Exact',
        ('IsExact', 'LaysAreExact', 'TokensAreExact'), ('lays_are_exact', 'tokens_are_exact'), 'Proved'),
    Law('before-a-round', 'a listed lay is obeyed as the first line, and no other is', 'moves/specs/TurnLaws',
        ('AreLaysAtStart', 'IsLayRefused', 'ListedLaysAreObeyed', 'OtherLaysAreRefused'), ('first_lay_is_by_the_list',), 'Proved'),
    Law('before-a-round', 'play comes to a first turn if nobody else has orders', 'foresight/specs/Reached',
        ('FirstTurnsAreReached', 'HeadsAreReached'), ('play_reaches_first_turns',), 'Proved'),
    Law('opening-round', 'an opening round of a file', 'rounds/specs/Example', ('first_file', 'first_events', 'first_end'), ('first_example',)),
    Law('stock-round', 'a stock round of a file', 'rounds/specs/Example', ('second_file', 'second_opening', 'second_stock_round', 'second_end'),
        ('second_example',)),
    Law('operating-round', 'who operates first', 'market/specs/OperatingOrder', ('both_at_67',), ('first_there_operates_first',)),
    Law('lays', 'a lay and a token', 'board/specs/Example', (), ('worked_examples',)),
    Law('certificates', 'a tree and its marks', 'certificate/specs/Example', (), ('worked_tree', 'worked_marks')),
]

# The chapters of what the contracts of a claim name, if no other chapter has that. The claims of the umpire have `streams`.
CHAPTER_OF = {'what is told before a round': 'before-a-round', 'what is told of a round': 'desk'}


def chapters() -> list[Chapter]:
    """Returns the chapters, empty. tools/rulebook/own has what a chapter says beside the players' pages, under its file name."""
    def rules(file: str, *headings: str, roots: str = '', files: str = '', steps: str = '') -> Chapter:
        sections = [('rules.md', heading) for heading in headings] + [('steps.md', steps)] * bool(steps)
        return Chapter(file, headings[0], sections, roots.split(', ') if roots else [], files.split())

    def other(file: str, title: str, page: str, *headings: str, roots: str = '', files: str = '') -> Chapter:
        return Chapter(file, title, [(page, heading) for heading in headings], roots.split(', ') if roots else [], files.split())

    return [
        rules('the-game', 'The game', files='rounds/Play rounds/Sequence report/EndWorth'),
        rules('players-and-money', 'Players and money', roots='totals: Game', files='history/Record'),
        rules('privates', 'Privates', files='privates/ParOfBo privates/Bank'),
        rules('companies', 'Companies and their shares', files='totals/Shares certs/President certs/Counted stock_round/Float'),
        rules('market', 'The market', files='market/Moves market/Token tables/Chart'),
        rules('trains-and-phases', 'Trains and phases', files='totals/Trains tables/Train'),
        rules('priority', 'Priority'),
        rules('conditions', 'Conditions', steps='Conditions, step by step', files='history/Conditions'),
        rules('bids', 'Bids', files='privates/Auction privates/Sale privates/Limit privates/Bid privates/Standing totals/Bids'),
        rules('opening-round', 'An opening round', 'What becomes of a line of an opening', steps='Two openings, step by step',
              files='privates/Opening privates/Turn privates/Closing privates/Buy turns/RoundOfTurns turns/Ruling tables/Turns tables/Rules'),
        rules('stock-round', 'A stock round', steps='A stock round, step by step',
              files='stock_round/StockRound stock_round/Turn stock_round/Standing stock_round/Orders stock_round/Deals stock_round/Closing'),
        rules('buying-shares', 'Buying shares', files='certs/Purchase stock_round/Buy stock_round/Par'),
        rules('sales', 'Sales', files='certs/Sale certs/SaleAct stock_round/Sell'),
        rules('exchange', 'The exchange of MH', files='stock_round/Exchange'),
        rules('operating-round', 'An operating round', steps='Operating rounds, step by step',
              files='rounds/OperatingRound totals/Operating market/OperatingOrder purchases/Standing'),
        rules('company-turn', "A company's turn", roots='operating: OrderLeads, operating: LinesLead',
              files='operating/Turn operating/TurnEnd operating/CompanyOrders operating/TurnState operating/Progress operating/HomeToken '
              'operating/MapState operating/BoardAsker board/Turn'),
        rules('reach', 'What a company reaches', files='reach/Walk reach/Position reach/Reached'),
        rules('lays', 'Lays', files='board/LayRules board/Powers operating/Lay map_tables/Fit'),
        rules('tokens', 'Tokens', files='board/TokenRules operating/Token'),
        rules('runs', 'Runs', files='legal_runs/Fault legal_runs/Named legal_runs/Legal legal_runs/Marks operating/Run '
              'operating/CompletedRuns'),
        rules('best-runs', 'RUN BEST', files='legal_runs/Set operating/RunBest'),
        rules('dividends', 'Dividends', files='certs/Dividend operating/Pay'),
        rules('consent', 'Consent', steps='Three presidents deal, step by step',
              files='purchases/Offer purchases/Consents events/Offers totals/Offers'),
        rules('buying-trains', 'Buying trains', steps='Trains, step by step', files='purchases/Train operating/Train'),
        rules('forced-purchase', 'The train that a company must buy',
              files='forced_purchase/Forced forced_purchase/Raise forced_purchase/Shortfall legal_runs/TwoTrain'),
        rules('buying-privates', 'Privates that companies buy', files='purchases/Private operating/Private'),
        rules('new-phase', 'A new phase', files='purchases/Phases purchases/Discard'),
        rules('own-rules', 'House rules'),
        other('map', 'The map and its tiles', 'map.md', 'Hexes and sides', 'Stops', 'Companies and privates on the map', 'Tiles',
              files='map_tables/Hex map_tables/Print map_tables/Tile map_tables/Track map_tables/Side map_tables/Border map_tables/Home '
              'map_tables/Place map_tables/OnMap map_tables/Lay map_tables/Laws'),
        other('lines', 'Lines and sheets', 'formats.md', 'An order file', 'Codes of lines by themselves',
              roots='sheets: content_of, sheets: players_of',
              files='order_grammar/Class order_grammar/Form order_grammar/Words order_grammar/Name order_grammar/Keyword '
              'order_grammar/Limits order_grammar/Line order_grammar/Order order_grammar/Condition order_grammar/Version '
              'order_grammar/Fault sheets/File sheets/Part sheets/Sheet sheets/Text sheets/Reading sheets/Limits sheets/Place '
              'sheets/Taken sheets/CompanyOrders map_tables/Text'),
        other('report', 'The report', 'formats.md', 'The report:',
              files='report/Report report/Statement report/Line report/Column order_grammar/Print events/RuleCodes '
              'map_tables/RuleCodes tables/RuleTexts events/RulingText'),
        other('certificates', 'Certificates', '../programs/certificates.md', 'What a certificate shows', 'The text of certificates',
              'How a game is verified',
              files='certificate/Tree certificate/Holding certificate/Digits certificate/Checked certificate/Filled umpire/Groups '
              'umpire/InputSplit umpire/Written operating/TurnCalls operating/Calls rounds/GameCalls rounds/Faults legal_runs/Claim '
              'umpire/Certified'),
        other('version-2', 'Migrating to version 2', 'formats.md', 'Migrating to version 2', files='umpire/Migrated'),
        other('streams', 'What is read and written', 'formats.md', 'The program', files='umpire/Run umpire/Failure umpire/Watched umpire/Verify'),
        Chapter('before-a-round', 'What is told before a round', []),
        Chapter('desk', 'What is told of a round', []),
    ]
