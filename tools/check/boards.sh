# The part `boards`: the search for best runs beside a slow one, which is written apart from it, on small boards.

# check_boards: the built program bench_boards, which `rt ci` leaves.
check_boards() {
  if [ -x crates/bench_boards/out/bench_boards ]; then
    take_over bench/agree "$@"
  else
    count 'the small boards' 'bench_boards is not built: run ./check proofs'
  fi
}

boards_must_fail() {
  [ -x crates/bench_boards/out/bench_boards ] || return 0
  awk '/^BOARD/ && ++boards > 1 { exit } { sub(/^THREE_TWOS 60/, "THREE_TWOS 70"); print }' bench/small-boards.txt \
    > "$scratch/a-board.txt"
  sees 'a board that earns otherwise than by hand' 1 take_over bench/agree "$scratch/a-board.txt"
}
