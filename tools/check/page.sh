# The part `page`: the page of a game, byte for byte and read back as a picture.

# The games whose pages are read: the first round, one whose lines have all signs of a page, bids of the last seat, a long one of
# each kind, privates of companies, six players, and the ends, one of them after 200 rounds.
read_games=(first-round signs-of-a-page desk/round-bids-of-six presidents-run-their-best three-companies-build to-the-first-diesel
  to-the-first-diesel-of-four ninety-five-tiles conditions three-presidents-deal stock-round-of-six broken-bank-by-a-dividend
  a-president-is-bankrupt)

# style_of: the style of a page, and unstyled: the page without it.
style_of() { sed -n '/<style>$/,/^<\/style>/{/<style>$/d;/^<\/style>/d;p}'; }
unstyled() { sed '/<style>$/,/^<\/style>/{/<style>$/p;/^<\/style>/p;d}'; }

# play_page FILE: the page is what `desk page` writes, with the style that all pages have. NAME.words has the game and the
# round, where the name is not the game.
play_page() {
  local name=${1%.html} orders words=
  orders=games/${name##*/}.orders
  [ ! -f "$name.words" ] || { read -r orders words < "$name.words" && orders=games/$orders.orders; }
  # shellcheck disable=SC2086
  "$desk" page $words < "$orders" > "$scratch/page" 2> "$scratch/err"
  unstyled < "$scratch/page" > "$scratch/out"
  cmp -s games/page/style.css <(style_of < "$scratch/page") || echo 'another style' >> "$scratch/err"
  judge "$name" "$(($(wc -c < "$scratch/page") == 0))" 0 "$1" none
}

# play_alike FILE: the page of a game with some words is that of another. NAME.as has the name of that page, the game and the words.
play_alike() {
  local name=${1%.as} alike orders words
  read -r alike orders words < "$1"
  # shellcheck disable=SC2086
  "$desk" page $words < "games/$orders.orders" > "$scratch/page" 2> "$scratch/err"
  unstyled < "$scratch/page" > "$scratch/out"
  judge "$name" "$(($(wc -c < "$scratch/page") == 0))" 0 "games/page/$alike.html" none
}

# play_ahead FILE: the panel above the map is this. NAME.words has the game, and the round if it is not the last.
play_ahead() {
  local name=${1%.ahead} orders words
  read -r orders words < "$name.words"
  # shellcheck disable=SC2086
  "$desk" page $words < "games/$orders.orders" 2> "$scratch/err" | sed -n '/<section id="ahead"/,/<\/section>/{s,</section>.*,</section>,;p}' > "$scratch/out"
  judge "$name" "${PIPESTATUS[0]}" 0 "$1" none
}

# told_of GAME FOLDER: what the desk tells of a game: its page, its state, and the runs of its last operating round.
told_of() {
  local orders=games/$1.orders round word
  mkdir -p "$2"
  cp "$orders" "$2/orders"
  if [ -f "games/$1.report" ]; then cp "games/$1.report" "$2/report"; else "$program" report < "$orders" > "$2/report"; fi
  round=$(awk '/^ROUND OR/ { round = $2 } END { print round }' "$2/report")
  "$desk" page < "$orders" > "$2/page" 2> "$scratch/err" || return
  for word in state round bulletin; do
    "$desk" "$word" < "$orders" > "$2/$word" 2> "$scratch/err" || return
  done
  : > "$2/runs"
  [ -z "$round" ] || "$desk" runs "$round" < "$orders" > "$2/runs" 2> "$scratch/err"
}

# read_page NAME FOLDER: a page shows the state and the runs beside it.
read_page() {
  local why=
  tools/page-reader "$2/page" "$2" > "$2/wrong" 2>&1 || why="it is not what the desk tells: $(head -n 3 "$2/wrong")"
  count "the page of $1" "$why"
}

# read_game GAME: the same of a game, as the desk tells of it.
read_game() {
  local folder=$scratch/page.${1##*/}
  told_of "$1" "$folder" || { count "the page of $1" 'the desk does not tell of it' && return; }
  read_page "$1" "$folder"
  rm -rf "$folder"
}

# The games of whose pages what may be done is read: an opening, a stock round, operating rounds, and the ends.
lays_games=(first-operating-round first-round first-stock-round first-dividend three-presidents-deal three-companies-build
  to-the-first-diesel-of-four broken-bank-by-a-dividend)

# read_lays GAME: what its page says may be done is what `lays` and `may` list. Its one script is that of its head and of the
# documents.
read_lays() {
  local why=
  DESK=$desk bench/page-lays "games/$1.orders" > "$scratch/wrong" 2>&1 || why="it is not what the desk lists: $(head -n 3 "$scratch/wrong")"
  count "what may be done in $1" "$why"
}

# play_lays FILE: the lines of the page are these. NAME.words has the game and the round.
play_lays() {
  local name=${1%.lays} game round
  read -r game round < "$name.words"
  DESK=$desk bench/page-lays --print "games/$game.orders" "$round" > "$scratch/out" 2> "$scratch/err"
  judge "$name" $? 0 "$1" none
}

# The games whose pages of all rounds are read: of one round, and of several with dividends.
all_games=(first-round first-dividend)

# read_all GAME: each button of the page of all its rounds shows what the page of that round shows.
read_all() {
  local why=
  DESK=$desk bench/page-all "games/$1.orders" > "$scratch/wrong" 2>&1 || why="it is not the page of the round: $(head -n 3 "$scratch/wrong")"
  count "all rounds of $1" "$why"
}

# read_all_lays GAME: the same with what may be done, which is what `lays` and `may` list.
read_all_lays() {
  local why=
  DESK=$desk bench/page-all --lays "games/$1.orders" > "$scratch/wrong" 2>&1 \
    && DESK=$desk bench/page-lays --all "games/$1.orders" > "$scratch/wrong" 2>&1 || why="it is another page: $(head -n 3 "$scratch/wrong")"
  count "all rounds of $1, with what may be done" "$why"
}

# read_tiles: the sheet of all tiles shows those of the map's table.
read_tiles() {
  local why=
  "$desk" page --tiles < /dev/null > "$scratch/tiles" 2> "$scratch/err" || why='it is not written;'
  tools/page-reader --tiles "$scratch/tiles" > "$scratch/wrong" 2>&1 || why+=" $(head -n 3 "$scratch/wrong")"
  count 'the sheet of all tiles' "$why"
}

# read_history: the history of a long game shows all rounds up to 48, of more every second, every third and so on, and always the
# last.
read_history() {
  local it round rounds why=
  for it in PR47:47 PR48:48 PR49:25 PR95:48 PR96:48 PR97:33 PR144:48 PR145:37; do
    round=${it%:*}
    rounds=$("$desk" page "$round" < games/broken-bank.orders 2> "$scratch/err" | sed -n '/id="figures"/,/<\/table>/p' |
      grep -o '<th scope="row">[A-Z0-9]*')
    [ "$(wc -l <<< "$rounds") ${rounds##*>}" = "${it#*:} $round" ] || why+=" another number of rounds after $round;"
  done
  count 'the rounds of a history' "${why# }"
}

# compare_picture FILE GAME: the picture of the documents is the map of that game's page, or without a game that of all tiles.
compare_picture() {
  if [ -n "${2:-}" ]; then
    "$desk" page < "games/$2.orders" 2> "$scratch/err" | tools/map-picture > "$scratch/picture" 2>> "$scratch/err"
  else
    "$desk" page --tiles < /dev/null 2> "$scratch/err" | tools/map-picture --tiles > "$scratch/picture" 2>> "$scratch/err"
  fi
  count "$1" "$(cmp -s "$1" "$scratch/picture" || echo 'it is not the picture of the page: tools/map-picture takes it out')"
}

# compare_pictures: a map with runs, the map before a game, and all tiles.
compare_pictures() {
  compare_picture docs/page-map.svg presidents-run-their-best
  compare_picture docs/map.svg file-no-sheets
  compare_picture docs/tiles.svg
}

# check_page: with the word quick it reads fewer games.
check_page() {
  local games=("${read_games[@]}")
  [ "${1:-}" != quick ] || games=("${read_games[@]:0:3}") lays_games=("${lays_games[@]:0:2}")
  side_by_side play_page games/page/*.html
  side_by_side play_alike games/page/*.as
  side_by_side play_ahead games/page/*.ahead
  side_by_side read_game "${games[@]}"
  side_by_side play_lays games/page/*.lays
  side_by_side read_lays "${lays_games[@]}"
  side_by_side read_all "${all_games[@]}"
  read_all_lays first-stock-round
  read_tiles
  read_history
  read_last_rounds
  compare_pictures
}

# read_last_rounds: a page of all rounds up to one has the last 60 of them at most, and its title names it and says how many there were.
read_last_rounds() {
  local it up_to first title rounds why=
  for it in 'PR60 PR1 60 rounds' 'PR61 PR2 the last 60 of 61 rounds' 'PR197 PR138 the last 60 of 197 rounds'; do
    read -r up_to first title <<< "$it"
    "$desk" page --all "$up_to" < games/broken-bank.orders > "$scratch/last" 2> "$scratch/err"
    rounds=$(grep -o 'aria-label="After [A-Z0-9.]*"' "$scratch/last" | tr -dc 'PR0-9\n')
    [ "$(wc -l <<< "$rounds") ${rounds%%$'\n'*} ${rounds##*$'\n'}" = "60 $first $up_to" ] || why+=" other rounds up to $up_to;"
    grep -qF "<title>1830: after $up_to, $title</title>" "$scratch/last" || why+=" another title up to $up_to;"
  done
  count 'the last rounds of a page' "${why# }"
}

# turned_page SCRIPT: a page that a script of sed has turned, beside the state and the runs of its game.
turned_page() {
  mkdir -p "$scratch/turned"
  cp "$scratch"/right/* "$scratch/turned"
  sed -e "$1" "$scratch/right/page" > "$scratch/turned/page"
  cmp -s "$scratch/right/page" "$scratch/turned/page" && : > "$scratch/turned/page"
  read_page 'what is turned' "$scratch/turned"
}

page_must_fail() {
  local program desk
  program=$(stub 'echo') desk=$program
  sees 'a desk that writes another page' all side_by_side play_page games/page/*.html
  sees 'another page with a day where there is none' all side_by_side play_alike games/page/*.as
  sees 'a page without the panel above the map' all side_by_side play_ahead games/page/*.ahead
  sees 'a page without what may be done' all side_by_side play_lays games/page/*.lays
  sees 'the same of another game' 1 read_lays first-dividend
  sees 'a sheet without tiles' 1 read_tiles
  sees 'a history without rounds' 1 read_history
  sees 'a page without the last rounds' 1 read_last_rounds
  sees 'other pictures' 3 compare_pictures
  program=$1 desk=$2
  desk=$(desk_but 's/onclick=e/onclick=d/')
  sees 'another script than that of the head' 1 read_lays first-dividend
  desk=$2
  desk=$(desk_but 's,</svg>LAY ,&1,')
  sees 'a lay of another tile' 1 read_lays first-stock-round
  desk=$2
  desk=$(desk_but 's/class="f1 t1"/class="f1"/')
  sees 'an element that is shown too long' 1 read_all first-dividend
  desk=$2
  desk=$(desk_but 's/type="checkbox" class="d/&1/')
  sees 'the box of another route' 1 read_all first-dividend
  desk=$2
  told_of presidents-run-their-best "$scratch/right" || return
  sees 'a right page' 0 read_page 'what is right' "$scratch/right"
  sees 'an element that is not ended' 1 turned_page 's,</section>,,'
  sees 'an id that is there twice' 1 turned_page 's/id="q"/id="d"/'
  sees 'a reference that leads nowhere' 1 turned_page '0,/href="#h80"/s//href="#h81"/'
  sees 'a page that needs another' 1 turned_page 's,<main>,<main><a href="https://example.org">x</a>,'
  sees 'a byte that is not ASCII' 1 turned_page '0,/BOB/s//B\xd6B/'
  sees 'a hex that is not there' 1 turned_page 's/class="r" x="468" y="62"/class="r" x="469" y="62"/'
  sees 'a track that is turned' 1 turned_page 's/M-52 0A30 30 0 0 0 -26-45/M-52 0A30 30 0 0 0 26-45/g'
  sees 'a token of another company' 1 turned_page 's/href="#tM" x="0" y="0"/href="#tP" x="0" y="0"/'
  sees 'a label of another tile' 1 turned_page '0,/>57\/5</s//>57\/4</'
  sees 'a route that goes another way' 1 turned_page 's/class="rc" d="M728 332/class="rc" d="M728 333/'
  sees 'a route off its lane' 1 turned_page 's/\(class="rc" d="M728 332C[-0-9 ]* \)\([0-9]*\) \([0-9]*\)C/\1\2 1\3C/'
  sees 'a sum of another run' 1 turned_page '0,/>290<\/text>/s//>280<\/text>/'
  sees 'a closed border that is not told' 1 turned_page 's/; closed border at side 5//'
  sees 'tokens of a square in another order' 1 turned_page 's/#mB" x="570"/#mH" x="570"/; s/#mH" x="551"/#mB" x="551"/'
  sees 'a private of another owner' 1 turned_page '0,/<td>closed<\/td>/s//<td>DAN<\/td>/'
  sees 'a bid that nobody made' 1 turned_page 's/<td>closed<\/td><td>&#183;/<td>closed<\/td><td>EVE 60/'
  sees 'a history without the last round' 1 turned_page 's/OR11.3<\/th><td>1787/OR11.1<\/th><td>1787/'
  sees 'a red area with the value of another phase' 1 turned_page '0,/class="pw" x="17" y="5">70/s//class="pw" x="17" y="5">40/'
  sees 'a token that is not marked as moved' 1 turned_page '0,/<use href="#nm"[^>]*>/s///'
  sees 'a revenue of another round' 1 turned_page '/id="revenue"/,$s/>OR11.2<\/th>/>OR11.4<\/th>/'
  sees 'a revenue that was not withheld' 1 turned_page '0,/<td class="num">170 w<\/td>/s//<td class="num">170<\/td>/'
  sees 'a bulletin that says another thing' 1 turned_page 's/DIVIDENDS DAN 290/DIVIDENDS DAN 291/'
  sees 'a checksum of another file' 1 turned_page 's/CRC-32 ./CRC-32 /'
  rm -rf "$scratch/right" "$scratch/turned"
}
