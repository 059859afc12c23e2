# The part `desk`: what the umpire's desk writes of games.

# play_desk_text TEXT: the text is what a word of the desk writes. The words and the game of games/ stand in NAME.words; where there
# is no such file, the name begins with the word, and goes on with the game, unless its order file is NAME.orders. NAME.said is the
# line on standard error, where there is one.
play_desk_text() {
  local name=${1%.text} words orders status=0 said=none
  words=${name##*/} words=${words%%-*}
  orders=${name##*/} orders=games/${orders#"$words"-}.orders
  [ ! -f "$name.orders" ] || orders=$name.orders
  [ ! -f "$name.words" ] || { read -r orders words < "$name.words" && orders=games/$orders.orders; }
  [ ! -f "$name.status" ] || status=$(< "$name.status")
  [ ! -f "$name.said" ] || said=$(< "$name.said")
  # shellcheck disable=SC2086
  "$desk" $words < "$orders" > "$scratch/out" 2> "$scratch/err"
  judge "$name" $? "$status" "$1" "$said"
}

# explain_codes FILE: of each code, in lower case and between spaces, the desk says what the table of that document says, and names a
# game that there is.
explain_codes() {
  local row code game why all=0
  while IFS= read -r row; do
    [[ $row =~ ^\|\ ([A-Z][0-9]+)\ \|\ (.*)\ \|\ (.*)\ \|$ ]] || continue
    code=${BASH_REMATCH[1]} why='' all=$((all + 1))
    printf '%s: %s\nTo do: %s\n' "$code" "${BASH_REMATCH[2]}" "${BASH_REMATCH[3]}" > "$scratch/owed"
    "$desk" explain " ${code,,} " < /dev/null > "$scratch/out" 2> "$scratch/err" || why="its status is $?"
    head -n 2 "$scratch/out" | cmp -s - "$scratch/owed" || why="it does not say what $1 says"
    game=$(sed -n 's/^Game: //p' "$scratch/out")
    [[ $code == F[34] || ( $game == games/codes/$code-* && -f $game ) ]] || why='it names no game'
    count "desk explain $code" "$why"
  done < <(sed -n '/^### All codes/,/^### Codes of lines/p' "$1")
  ((all > 0)) || count "the codes of $1" 'there are none'
}

# look_at_codes FILE: the table of codes in that document is what tools/codes makes of what the desk explains.
look_at_codes() {
  "$desk" explain --all < /dev/null > "$scratch/explained"
  take_over tools/codes --check --page "$1" < "$scratch/explained"
}

# round_part REPORT [ROUND]: the part of a report that tells of a round, of the last that was played where none is named.
round_part() {
  awk -v asked="${2:-}" '
    /^ROUND / { if (asked == "") text = ""; within = asked == "" || $2 == asked }
    within { text = text $0 "\n" }
    /^BANK / { within = 0 }
    END { printf "%s", text }' "$1"
}

# play_rounds ORDERS: `round` writes a round's part of the report, of each round of the game, and `--why` adds lines to it.
play_rounds() {
  local report=${1%.orders}.report round why=
  [ ! -f "${1%.orders}.status" ] || return 0
  if ! grep -q '^ROUND ' "$report"; then
    "$desk" round < "$1" > "$scratch/out" 2> "$scratch/err"
    judge "the rounds of $1, of which it has none" $? 1 /dev/null some
    return 0
  fi
  for round in $(awk '$1 == "ROUND" { print $2 }' "$report") ''; do
    round_part "$report" "$round" > "$scratch/part"
    "$desk" round ${round:+"$round"} < "$1" 2> "$scratch/err" | cmp -s - "$scratch/part" || why+=" $round is another text;"
  done
  "$desk" round --why < "$1" 2> "$scratch/err" | sed '/^  /d' | cmp -s - "$scratch/part" || why+=' --why loses lines;'
  count "the rounds of $1" "${why# }"
}

# has_best ORDERS: whether the program obeys a RUN BEST of the game, whose report it leaves behind.
has_best() {
  "$program" report < "$1" > "$scratch/of-best"
  grep -qE ' OBEYED (IF .* )?RUN BEST$' "$scratch/of-best"
}

# play_runs ORDERS: what `runs` writes of each RUN BEST that is obeyed, put in its place in the file, earns the same.
play_runs() {
  local report=$scratch/of-best round why=
  has_best "$1" || return 0
  for round in $(awk '$1 == "ROUND" { round = $2 } /RUN BEST$/ && $3 == "OBEYED" { print round }' "$report" | uniq); do
    "$desk" runs "$round" < "$1" || why+=" $round: the status is $?;"
  done > "$scratch/runs"
  games/desk/put-runs "$scratch/runs" "$report" < "$1" > "$scratch/written"
  "$program" report < "$scratch/written" > "$scratch/of-written"
  ! grep -qE ' OBEYED (IF .* )?RUN BEST$' "$scratch/of-written" || why+=' a RUN BEST is left;'
  cmp -s <(what_came "$report") <(what_came "$scratch/of-written") || why+=' it comes out otherwise;'
  count "the best runs of $1, in full" "${why# }"
}

# what_came REPORT: what came of a game beside its rulings, and what each company earned in each round.
what_came() {
  awk '
    /^[A-Z][A-Z0-9]* [0-9]+ (OBEYED|REFUSED) / { next }
    $1 == "ROUND" { round = $2 }
    $1 == "RUNS" { earned[round " " $2] += $3; next }
    { print }
    END { for (it in earned) if (earned[it] > 0) print it, earned[it] | "sort" }' "$1"
}

# tell_beyond MORE: of a file with so many more unread lines than `check` lists, it lists 10,000, and counts the others.
tell_beyond() {
  local findings=findings why=
  [ "$1" != 1 ] || findings=finding
  { printf 'GAME 1830 1\nPLAYERS ANN BOB CYD\n' && yes BUY | head -n $((10000 + $1)); } > "$scratch/unread.orders"
  "$desk" check < "$scratch/unread.orders" > "$scratch/out" 2> "$scratch/err"
  [ "$(grep -c ' | BUY | it belongs to no sheet' "$scratch/out")" = 10000 ] || why+=' it does not list 10,000;'
  grep -q "^and $1 $findings more, of lines" "$scratch/out" || why+=' it does not count the others;'
  count "$1 findings more than are listed" "${why# }"
}

# read_facts DESK ORDERS..: the facts that this desk writes as JSON are those of its texts.
read_facts() { take_over tools/facts-reader -r 2 "$@"; }

# read_facts_of ORDERS: those of the desk that is tried, of a game that is not refused.
read_facts_of() { [ -f "${1%.orders}.status" ] || read_facts "$desk" "$1"; }

# try_every_word ORDERS: each word of the desk on the order file, with no other status than it may
# have, and with text on standard error if it has no result, and only then.
try_every_word() {
  local words status why=
  for words in round 'round --why' 'round --json' 'round OR1.1' runs 'runs SR1' state 'state SR1' 'state --before' 'state --json' \
    bulletin 'bulletin --due Sunday' page 'page SR1' check 'check --all' 'check --from 9' 'lays PRR' 'lays PRR --drafted --lines' \
    'may ANN' 'may ANN --lines' 'may ANN --drafted' 'best NYC 2' \
    trial 'hex H10'; do
    # shellcheck disable=SC2086
    "$desk" $words < "$1" > "$scratch/out" 2> "$scratch/err"
    status=$?
    case $words,$status in
      check*,2 | *,0 | check*,3) [ ! -s "$scratch/err" ] || why+=" $words says something;" ;;
      *,2 | round*,1 | runs*,1 | state*,1 | bulletin*,1 | page*,1 | lays*,1 | may*,1 | best*,1 | trial*,1 | hex*,1)
        [ -s "$scratch/err" ] || why+=" $words says nothing;"
        ;;
      *) why+=" $words ends with status $status;" ;;
    esac
  done
  count "each word of the desk on $1" "${why# }"
}

# play_session FOLDER: a game of which each round was sent first as in ROUND.sent and then mended as in ROUND.sheets. Before the round
# is played, `check` tells of what was sent as ROUND.told has it, and of the mended sheets nothing. No line is refused in the end.
play_session() {
  local so_far=$scratch/so-far from name sheets owed status
  : > "$so_far"
  for sheets in "$1"/*.sheets; do
    name=${sheets%.sheets} from=$(($(wc -l < "$so_far") + 1))
    if [ -f "$name.sent" ]; then
      cat "$so_far" "$name.sent" | "$desk" check --from "$from" > "$scratch/out" 2> "$scratch/err"
      judge "$name as it was sent" "${PIPESTATUS[1]}" 3 "$name.told" none
    fi
    cat "$sheets" >> "$so_far"
    "$desk" check --from "$from" < "$so_far" > "$scratch/out" 2> "$scratch/err"
    status=$? owed=/dev/null
    [ ! -f "$name.mended" ] || owed=$name.mended
    judge "$name as it was mended" "$status" "$([ "$owed" = /dev/null ] && echo 0 || echo 3)" "$owed" none
  done
  "$program" report < "$so_far" > "$scratch/report"
  count "the report of $1" "$(grep -E ' REFUSED |^(UNREAD|LEFT|FILE) ' "$scratch/report" | head -n 1)"
  count "the end of $1" "$([ "$(tail -n 1 "$scratch/report")" = "$(cat "$1/end")" ] || echo 'it is another')"
}

# try_damaged N: each word of the desk on so many damaged files.
try_damaged() { take_over bench/damaged "$1" "$desk" "$program"; }

# moves_games: ten games of which each row is tried that the desk lists before the last rounds: openings with bids and limits, stock
# rounds of three and of six, brown shares, privates and their lays, consents, and trains that must be bought, by
# RAISE and in vain.
moves_games() {
  local name
  for name in auctions-of-two-rounds stock-round-of-six first-dividend codes/S13-several-in-the-brown-zone dh-for-a-company \
    three-presidents-deal codes/I1-RAISE-that-is-needed a-4-for-pennsylvania a-president-is-bankrupt \
    desk/may-buy-a-private-that-privates-pay; do
    echo "games/$name.orders"
  done
}

# try_moves DESK ROUNDS LINES GAME..: before the last rounds of games, so many of each, each row that this desk lists is decided as it
# says, and of each company so many other lays and tokens are refused.
try_moves() { take_over bench/moves -p "$program" -d "$1" -r "$2" -n "$3" "${@:4}"; }

# desk_but SCRIPT: makes a desk whose lines a script of sed changes, and prints its path.
desk_but() {
  local listed=$scratch/listed.\$\$
  stub "'$desk' \"\$@\" > $listed; status=\$?; sed '$1' $listed; rm $listed; exit \$status"
}

# told_games: games of each code, and those of the codes that come only of what earlier rounds brought.
told_games() {
  local name
  echo games/codes/*.orders
  for name in a-sale-into-a-full-pool prices-of-privates BOP-for-a-company a-tile-of-an-earlier-round; do
    echo "games/desk/check-$name.orders"
  done
}

# try_told DESK ROUNDS WORD..: of each sheet for the last rounds of games, so many of each, this desk tells before the round what the
# umpire then refuses; with -a each code of an order is told.
try_told() { take_over bench/told -p "$program" -d "$1" -r "$2" "${@:3}"; }

# moves_must_fail: what is deliberately broken. Of games/first-round three players may buy CS for 40, and not DH. In
# games/first-stock-round PRR may lay 57 on H10 in OR1.1. Before OR4.1 of the third game PRR may place a token in H10, and PRR, or BO at
# either price, buy DH if BOB offers it.
moves_must_fail() {
  local opening=games/first-round.orders first=games/first-stock-round.orders
  local later=games/desk/may-buy-a-private-that-privates-pay.orders
  sees 'a row with another code' 3 try_moves "$(desk_but 's/^BUY DH    A3$/BUY DH    A7/')" 1 600 "$opening"
  sees 'a row with another price' 3 try_moves "$(desk_but 's/^BUY CS    OK 40$/BUY CS    OK 45/')" 1 600 "$opening"
  sees 'a refused row that is told as obeyed' 3 try_moves "$(desk_but 's/^BUY DH    A3$/BUY DH    OK 70/')" 1 600 "$opening"
  sees 'an obeyed row that is told as refused' 3 try_moves "$(desk_but 's/^BUY CS    OK 40$/BUY CS    A3/')" 1 600 "$opening"
  sees 'another turn before' 1 try_moves "$(desk_but 's/^\(BEFORE .*\) BOB$/\1 ANN/')" 1 600 "$opening"
  sees 'a desk that lists nothing' all try_moves "$(stub 'exit 0')" 1 600 "$opening"
  sees 'lays before an opening' 1 try_moves "$(stub "[ \$1 != lays ] || exit 0; exec '$desk' \"\$@\"")" 1 600 "$opening"
  sees 'a lay that is listed and not obeyed' 1 try_moves "$(desk_but 's/^LAY 57 H10 1 /LAY 57 H12 1 /')" 1 600 "$first"
  sees 'a lay with another price' 1 try_moves "$(desk_but 's/^LAY 57 H10 1    0$/LAY 57 H10 1    80/')" 1 600 "$first"
  sees 'a token that is not listed' 1 try_moves "$(desk_but '/^TOKEN H10.0 /d')" 1 600 "$later"
  sees 'the consent of another player' 3 try_moves "$(desk_but 's/ BOB OFFER PRIVATE DH / CYD OFFER PRIVATE DH /')" 1 600 "$later"
}

# told_must_fail: what is deliberately broken. In the game the order to sell is refused with S4.
told_must_fail() {
  local game=games/desk/check-a-sale-into-a-full-pool.orders
  sees 'a refusal that is not told before its round' 1 try_told "$(desk_but '/ if nobody orders anything before it: S4: /d')" 1 "$game"
  sees 'a refusal that is told and does not come' 2 try_told "$(desk_but 's/ before it: S4: / before it: S5: /')" 1 "$game"
  sees 'codes that nobody is told' all try_told "$(stub 'exit 0')" 1 -a "$game"
}

# formats: the document that has the table of the codes.
formats() { echo docs/players/formats.md; }

# check_desk: with the word quick it plays the games of games/desk and the codes, tries few damaged files, and leaves out the rest,
# which plays games anew for each of their rounds.
check_desk() {
  side_by_side play_desk_text games/desk/*.text
  play_session games/desk/ten-rounds
  tell_beyond 1
  tell_beyond 2
  explain_codes "$(formats)"
  look_at_codes "$(formats)"
  if [ "${1:-}" = quick ]; then
    read_facts "$desk" games/first-dividend.orders games/auctions.orders games/three-presidents-deal.orders games/a-president-is-bankrupt.orders
    try_damaged 20
    return
  fi
  try_damaged 100
  # shellcheck disable=SC2046
  try_moves "$desk" 3 2000 $(moves_games)
  # shellcheck disable=SC2046
  try_told "$desk" 2 -a $(told_games)
  try_told "$desk" 0 games/a-slip-of-each-code.orders
  side_by_side read_facts_of games/*.orders games/codes/*.orders
  side_by_side play_rounds games/*.orders
  side_by_side play_runs games/*.orders games/certificates/certs-*.orders
  has_best games/best-run-of-two-trains.orders || count 'the best runs, in full' 'there are none'
  make_games
  side_by_side try_every_word games/*.orders games/*/*.orders "$scratch"/made/*.orders
}

desk_must_fail() {
  local wrong=$scratch/wrong-desk it=best-run-of-two-trains text=games/desk/check-a-late-sheet
  mkdir -p "$wrong"
  cp "$text.orders" "$text.status" "$wrong" && changed "$text.text" "$wrong/${text##*/}.text"
  sees 'a changed text of the desk' 1 play_desk_text "$wrong/${text##*/}.text"
  cp -r games/desk/ten-rounds "$wrong/told" && changed games/desk/ten-rounds/05-OR2.1.told "$wrong/told/05-OR2.1.told"
  sees 'a changed finding of a session' 1 play_session "$wrong/told"
  cp -r games/desk/ten-rounds "$wrong/mended" && cp "$wrong/mended/10-OR4.1.sent" "$wrong/mended/10-OR4.1.sheets"
  sees 'a session whose last round is not mended' 2 play_session "$wrong/mended"
  printf '### All codes\n\n| G1 | Another meaning. | Nothing. |\n\n### Codes of lines\n' > "$wrong/formats.md"
  sees 'another meaning of a code' 1 explain_codes "$wrong/formats.md"
  grep -v '^| A3 |' "$(formats)" > "$wrong/formats.md"
  sees 'a table that lacks a code' 1 look_at_codes "$wrong/formats.md"
  cp "games/$it.orders" "$wrong" && sed 's/^ROUND.*/&./' "games/$it.report" > "$wrong/$it.report"
  sees 'a round that is not as in the report' 1 play_rounds "$wrong/$it.orders"
  moves_must_fail
  told_must_fail
  sees 'a figure of the facts that is another' 2 read_facts "$(desk_but 's/"cash":528/"cash":529/')" games/first-dividend.orders
  sees 'an event of the facts that is another' 2 read_facts "$(desk_but 's/"event":"PAR"/"event":"RUNS"/')" games/first-stock-round.orders
  desk=$(desk_but 's/^and 2 findings/and 3 findings/')
  sees 'a wrong number of findings' 1 tell_beyond 2
  desk=$(stub 'exit 5')
  sees 'runs that are not in full' 1 play_runs "games/$it.orders"
  sees 'a word with a status that it may not have' 1 try_every_word "games/$it.orders"
  desk=$(stub 'exit 0')
  sees 'a desk that writes nothing on damaged files' all try_damaged 2
  desk=$2
}
