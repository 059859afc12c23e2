# The part `memory`: the programs with ever more memory.

# with_little_memory PROGRAM WORD FILE OWED: the program's word on the file with ever more memory
# (in kilobytes), from too little to be started up to enough. Each run owes the whole text, or a
# front of it and the word Memory. The limit is on all that the program maps, its stack too.
with_little_memory() {
  local name="${1##*/} $2" most status short=0 whole=0 least
  # (with less than this beside its own bytes a program cannot be loaded at all)
  least=$(($(stat -c %s "$1") / 1024 + 400))
  for ((most = least > 1400 ? least : 1400; most <= 64000 && whole < 3; most += 20)); do
    (ulimit -v "$most" && exec "$1" "$2") < "$3" > "$scratch/out" 2> "$scratch/err"
    status=$?
    if ((status == 0)); then
      whole=$((whole + 1))
      judge "$name: $most kilobytes of memory" 0 0 "$4" none
    elif ((status != 127)); then
      short=$((short + 1))
      head -c "$(wc -c < "$scratch/out")" "$4" > "$scratch/front"
      judge "$name: $most kilobytes of memory" "$status" 4 "$scratch/front" Memory
    fi
  done
  ((short > 0 && whole > 0)) ||
    count "$name: little memory" "$short runs had too little and $whole enough, and there should be both"
}

# check_memory: the report of a game of 197 rounds, the certificates of one in which two trains run
# their best, written and checked, and words of the desk.
check_memory() {
  local best=games/best-run-of-two-trains word
  with_little_memory "$program" report games/broken-bank.orders games/broken-bank.report
  "$program" certs < "$best.orders" > "$scratch/certs"
  with_little_memory "$program" certs "$best.orders" "$scratch/certs"
  { cat "$best.orders" && echo && cat "$scratch/certs"; } > "$scratch/certified"
  with_little_memory "$program" verify "$scratch/certified" "$best.report"
  "$program" migrate < "$best.orders" > "$scratch/migrated"
  with_little_memory "$program" migrate "$best.orders" "$scratch/migrated"
  for word in round runs state bulletin page; do
    "$desk" "$word" < "$best.orders" > "$scratch/owed"
    with_little_memory "$desk" "$word" "$best.orders" "$scratch/owed"
  done
}

memory_must_fail() {
  sees 'a program that writes another text, and never wants memory' all \
    with_little_memory "$(stub 'exit 0')" report "$game.orders" "$game.report"
}
