# The part `refusals`: an order file that is cut after each of its bytes, the largest text of
# certificates, and each request for memory refused (bench/refusals), in the program and in single
# calls of its libraries.

# play_cuts CUTS: each front of games/cuts/script.orders gives the report that the file CUTS knows
# by its SHA-256, with a status of the same line; each line is of the fronts of so many bytes, from
# a number to a number.
play_cuts() {
  local orders=games/cuts/script.orders first last wanted sum bytes status why all=0
  while read -r first last wanted sum; do
    for ((bytes = first; bytes <= last; bytes++)); do
      head -c "$bytes" "$orders" > "$scratch/cut"
      "$program" report < "$scratch/cut" > "$scratch/out" 2> "$scratch/err"
      status=$? why= all=$((all + 1))
      ((status == wanted)) || why+=" its status is $status and not $wanted;"
      [ "$(sha256sum < "$scratch/out")" = "$sum  -" ] || why+=' its standard output has another checksum;'
      [ ! -s "$scratch/err" ] || why+=' there is text on standard error;'
      count "$orders, cut after $bytes bytes" "${why# }"
    done
  done < "$1"
  ((all == $(wc -c < "$orders") + 1)) || count "$orders" "it was cut after $all places, and not after each of its bytes"
}

# play_largest: a text of certificates of the most bytes behind the first game, and one of a byte
# more.
play_largest() {
  local most=67108864 from
  { cat "$game.orders" && echo; } > "$scratch/largest"
  from=$(wc -c < "$scratch/largest")
  { echo 'CERTS 1' && yes "# Nothing ran$(printf '.%.0s' {1..1000})"; } | head -c "$most" >> "$scratch/largest"
  "$program" verify < "$scratch/largest" > "$scratch/out" 2> "$scratch/err"
  judge "a text of certificates of $most bytes" $? 0 "$game.report" none
  printf '#' >> "$scratch/largest"
  (($(wc -c < "$scratch/largest") == from + most + 1)) || count 'the largest text of certificates' 'it is not of that size'
  echo 'FILE REFUSED F3' > "$scratch/refused"
  "$program" verify < "$scratch/largest" > "$scratch/out" 2> "$scratch/err"
  judge 'a text of certificates of one byte more' $? 2 "$scratch/refused" none
  rm -f "$scratch/largest"
}

# play_largest_file: the largest order file, a game in which a company runs its best and comment lines behind it, with its
# certificates, and one of a byte more.
play_largest_file() {
  local most=67108864 best=games/best-run-of-two-trains
  { cat "$best.orders" && yes '# No line of it says more'; } | head -c "$most" > "$scratch/file"
  (($(wc -c < "$scratch/file") == most)) || count 'the largest order file' 'it is not of that size'
  "$program" certs < "$best.orders" > "$scratch/certs"
  { cat "$scratch/file" && echo && cat "$scratch/certs"; } > "$scratch/largest"
  "$program" verify < "$scratch/largest" > "$scratch/out" 2> "$scratch/err"
  judge "an order file of $most bytes by its certificates" $? 0 "$best.report" none
  echo 'FILE REFUSED F3' > "$scratch/refused"
  { cat "$scratch/file" && printf '#\n' && cat "$scratch/certs"; } > "$scratch/largest"
  "$program" verify < "$scratch/largest" > "$scratch/out" 2> "$scratch/err"
  judge 'an order file of one byte more by its certificates' $? 2 "$scratch/refused" none
  rm -f "$scratch/largest" "$scratch/file"
}

# check_refusals: takes the single calls as rt ci built them, and builds them where it did not, or
# where their source is newer.
check_refusals() {
  play_cuts games/cuts/cuts.txt
  play_largest
  play_largest_file
  if ./run-program test_allocations test_allocations print_line --build 2> "$scratch/err"; then
    take_over bench/refusals
  else
    count 'the single calls' 'they were not built'
  fi
}

refusals_must_fail() {
  local program=$1
  head -n 1 games/cuts/cuts.txt | sed 's/^\([0-9]*\) [0-9]* \([0-9]*\)/\1 \1 7/' > "$scratch/cuts"
  sees 'a wrong status, and a file that is not cut everywhere' 2 play_cuts "$scratch/cuts"
  sees 'counts that are taken over' 2 take_over echo '3 passed, 2 failed'
  sees 'a command that ends without counts' 1 take_over true
}
