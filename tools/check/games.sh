# The part `games`: each game gives its report, its certificates, and the file of version 2 that it
# is converted to.

# play_game ORDERS: the file of orders gives its report, with status 0 or that of its file. In
# folders whose games have certificates behind the orders, or ask for them, or migrate to version 2,
# its name begins with the program's word.
play_game() {
  local name=${1%.orders} word=report status=0
  case $name in
    */certificates/* | */migration/*) word=${name##*/} word=${word%%-*} ;;
  esac
  [ ! -f "$name.status" ] || status=$(< "$name.status")
  "$program" "$word" < "$1" > "$scratch/out" 2> "$scratch/err"
  judge "$name" $? "$status" "$name.report" none
}

# make_games: the games that games/make makes, once.
make_games() {
  [ ! -d "$scratch/made" ] || return 0
  mkdir "$scratch/made"
  games/make "$scratch/made" || count games/make 'it failed'
}

# certify_game ORDERS: of a game that is not refused the program writes certificates, one for each
# RUN BEST that is obeyed, and by them it gives the game's report.
certify_game() {
  local name=${1%.orders} why=
  [ ! -f "$name.status" ] || return 0
  "$program" certs < "$1" > "$scratch/certs" || why="the status is $?"
  [ "$(head -n 1 "$scratch/certs")" = 'CERTS 1' ] || why='the first line is not CERTS 1'
  [ "$(grep -c '^CERT ' "$scratch/certs")" = "$(grep -c -E ' OBEYED (IF .* )?RUN BEST$' "$name.report")" ] ||
    why='there are not as many groups as orders to run the best that are obeyed'
  count "the certificates of $name" "$why"
  { cat "$1" && echo && cat "$scratch/certs"; } > "$scratch/certified"
  "$program" verify < "$scratch/certified" > "$scratch/out" 2> "$scratch/err"
  judge "$name by its certificates" $? 0 "$name.report" none
}

# check_games: with the word quick it leaves out the large games that games/make makes, which take
# the unproved program minutes.
check_games() {
  side_by_side play_game games/*.orders games/codes/*.orders games/certificates/*.orders games/migration/*.orders
  [ "${1:-}" = quick ] || { make_games && side_by_side play_game "$scratch"/made/*.orders; }
  side_by_side certify_game games/*.orders
}

games_must_fail() {
  local wrong=$scratch/wrong-games best=games/best-run-of-two-trains
  mkdir -p "$wrong"
  cp "$game.orders" "$wrong/report.orders" && changed "$game.report" "$wrong/report.report"
  cp "$game.orders" "$game.report" "$wrong" && echo 2 > "$wrong/first-round.status"
  sees 'a changed report' 1 play_game "$wrong/report.orders"
  sees 'a wrong status' 1 play_game "$wrong/first-round.orders"
  sees 'failures side by side' 2 side_by_side play_game "$wrong"/*.orders
  sees 'a folder without games' 1 side_by_side play_game
  cp "$best.orders" "$wrong/it.orders" && grep -v 'RUN BEST$' "$best.report" > "$wrong/it.report"
  sees 'certificates too many, and another report by them' 2 certify_game "$wrong/it.orders"
}
