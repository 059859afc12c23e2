# What the parts of ./check share: how a case is counted, how a part is timed, and which programs
# are tried.
game=games/first-round
passed=0 failed=0
begun=$EPOCHSECONDS
: > "$scratch/parts"
: > "$scratch/empty"

# part FROM TO NAME: notes that a part of the check went from one second of the clock to another.
part() { printf '%d %d %s\n' "$1" "$2" "$3" >> "$scratch/parts"; }

# timed NAME COMMAND..: runs the command, and notes how long it took.
timed() {
  local from=$EPOCHSECONDS name=$1
  shift
  "$@"
  part "$from" "$EPOCHSECONDS" "$name"
}

# count NAME WHY: counts one more, passed where nothing says why not.
count() {
  if [ -z "$2" ]; then
    passed=$((passed + 1))
  else
    failed=$((failed + 1))
    echo "check: FAILED: $1: $2"
  fi
}

# judge NAME STATUS WANTED OUTPUT ERRORS: counts one run of the program, which ended with that
# status. Owed are the status WANTED, the bytes of the file OUTPUT on standard output, and on
# standard error nothing, some text, or a word: ERRORS is 'none', 'some' or that word.
judge() {
  local name=$1 status=$2 wanted=$3 output=$4 errors=$5 why=
  ((status == wanted)) || why+=" its status is $status and not $wanted;"
  cmp -s "$output" "$scratch/out" || why+=" its standard output differs from $output;"
  case $errors in
    none) [ ! -s "$scratch/err" ] || why+=" there is text on standard error;" ;;
    some) [ -s "$scratch/err" ] || why+=" there is nothing on standard error;" ;;
    *) grep -qx "$errors" "$scratch/err" || why+=" standard error does not say $errors;" ;;
  esac
  count "$name" "${why# }"
  if [ -n "$why" ]; then
    diff "$output" "$scratch/out" | head -n 6 | cut -c 1-120
    head -n 6 "$scratch/err" | cut -c 1-120
  fi
  : > "$scratch/out"
}

# take_over COMMAND..: runs the command, whose last line is 'N passed, M failed', shows the lines
# before that, and takes over its counts. A command that ends without that line counts as one
# failure.
take_over() {
  "$@" > "$scratch/told" 2>&1
  if [[ $(tail -n 1 "$scratch/told") =~ ^([0-9]+)\ passed,\ ([0-9]+)\ failed$ ]]; then
    passed=$((passed + BASH_REMATCH[1])) failed=$((failed + BASH_REMATCH[2]))
    head -n -1 "$scratch/told"
  else
    cat "$scratch/told"
    count "$*" 'it ended without counts'
  fi
}

# side_by_side COMMAND ITEM..: runs the command on each item, as many at once as there are
# processors, and adds up what they count. There is some item.
side_by_side() {
  local command=$1 most at item told
  shift
  most=$(nproc)
  (($# > 0)) || count "$command" 'there is nothing to run it on'
  for ((at = 1; at <= most; at++)); do
    mkdir -p "$scratch/side.$at"
    (
      scratch=$scratch/side.$at passed=0 failed=0
      for ((item = at; item <= $#; item += most)); do "$command" "${!item}"; done
      echo "$passed passed, $failed failed"
    ) > "$scratch/side.$at.told" 2>&1 &
  done
  wait
  for ((at = 1; at <= most; at++)); do
    told=$scratch/side.$at.told
    take_over cat "$told"
    rm -rf "$told" "$scratch/side.$at"
  done
}

# sees NAME WANTED COMMAND..: tries a part of the check itself: the command, on what is wrong by
# intent, must count so many failures. WANTED is that number, or 'all' where nothing may pass.
sees() {
  local name=$1 wanted=$2 counts
  shift 2
  counts=$(
    passed=0 failed=0
    part() { :; }
    "$@" > /dev/null 2>&1
    echo "$passed passed, $failed failed"
  )
  case $wanted,$counts in
    all,'0 passed, 0 failed') ;;
    all,'0 passed, '* | *", $wanted failed") counts= ;;
  esac
  count "the check sees $name" "${counts:+it counts $counts, and not $wanted failed}"
}

# stub TEXT: makes a program of a line of shell, for the parts to be tried on, and prints its path.
stub() {
  printf '#!/bin/sh\n%s\n' "$1" > "$scratch/stub"
  chmod +x "$scratch/stub"
  echo "$scratch/stub"
}

# changed FILE TO: a copy of the file whose first line is another.
changed() { sed '1s/$/./' "$1" > "$2"; }

# use_built: the parts try the proved programs, which are built where they are not yet there.
use_built() {
  program=crates/umpire_cli/out/umpire_cli
  desk=crates/desk_cli/out/desk_cli
  ./run-program umpire umpire_cli report --build && ./run-program desk desk_cli round --build
}

# use_tried: the parts try the programs before their proof, which are compiled where they are not
# kept.
use_tried() {
  tools/tried desk_cli round > "$scratch/desk" &
  program=$(tools/tried umpire_cli report)
  wait "$!" && desk=$(< "$scratch/desk") && [ -x "$program" ] && [ -x "$desk" ]
}

# tell_slowest: the five slowest proofs. rt tells no times by function or module, so these are
# crates, by the clock: their minutes are no measure where others were proved beside them.
tell_slowest() {
  local from to name
  grep -q ' the proof of ' "$scratch/parts" || return
  echo 'check: the five slowest proofs of crates, by the clock:'
  while read -r from to name; do
    echo "$((to - from)) $name"
  done < <(grep ' the proof of ' "$scratch/parts") | sort -n -r | head -n 5 | while read -r from name; do
    printf 'check: %4d:%02d  %s\n' $((from / 60)) $((from % 60)) "$name"
  done
}

# tell_parts: how long each part took, in minutes and seconds, in the order in which they began, and
# the whole, with the processor minutes of the check and of all that it started.
tell_parts() {
  local from to name processor
  echo 'check: how long each part took, and when it began:'
  sort -n -s "$scratch/parts" | while read -r from to name; do
    printf 'check: %4d:%02d  from %3d:%02d on  %s\n' $(((to - from) / 60)) $(((to - from) % 60)) \
      $(((from - begun) / 60)) $(((from - begun) % 60)) "$name"
  done
  times > "$scratch/times"
  processor=$(awk '{ for (i = 1; i <= NF; i++) { split($i, it, "m"); sum += 60 * it[1] + it[2] } } END { printf "%d", sum }' \
    "$scratch/times")
  printf 'check: %4d:%02d  all of it, on %d processors, in %d:%02d processor minutes\n' \
    $(((EPOCHSECONDS - begun) / 60)) $(((EPOCHSECONDS - begun) % 60)) "$(nproc)" $((processor / 60)) $((processor % 60))
}

# tell_counts: the last line. The status says whether nothing failed.
tell_counts() {
  echo "$passed passed, $failed failed"
  ((failed == 0))
}
