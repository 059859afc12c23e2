# The part `streams`: standard streams that are closed, full, no file or without an end, for each word of the programs that reads.

# try_stream NAME PROGRAM WORD ORDERS OWED [MORE READ WRITE]: the program's word with such streams; ORDERS is a file of which it
# would tell, and OWED what it writes where standard input has no end. MORE, READ and WRITE are what standard error has then, and
# where a read or a write fails.
try_stream() {
  local more=${6:-none} read=${7:-Read} write=${8:-Write}
  "$2" "$3" > "$scratch/out" 2> "$scratch/err" < <(yes)
  judge "$1: a standard input without an end" $? 2 "$5" "$more"
  "$2" "$3" < "$4" 2> "$scratch/err" >&-
  judge "$1: a closed standard output" $? 4 /dev/null "$write"
  "$2" "$3" < "$4" 2> "$scratch/err" > /dev/full
  judge "$1: a full device as standard output" $? 4 /dev/null "$write"
  "$2" "$3" > "$scratch/out" 2> "$scratch/err" < .
  judge "$1: a folder as standard input" $? 4 /dev/null "$read"
  "$2" "$3" > "$scratch/out" 2> "$scratch/err" <&-
  judge "$1: a closed standard input" $? 4 /dev/null "$read"
}

check_streams() {
  local word
  local said=('desk: standard input could not be read' 'desk: the answer could not be written to standard output')
  echo 'FILE REFUSED F3' > "$scratch/too-long"
  for word in report certs verify migrate; do
    try_stream "$word" "$program" "$word" "$game.orders" "$scratch/too-long"
  done
  for word in round runs state bulletin page; do
    try_stream "desk $word" "$desk" "$word" games/best-run-of-two-trains.orders "$scratch/too-long" some "${said[@]}"
  done
  # (`check` says in words of its own why a file is refused)
  "$desk" check > "$scratch/check-too-long" 2> /dev/null < <(yes)
  try_stream 'desk check' "$desk" check games/desk/check-a-late-sheet.orders "$scratch/check-too-long" none "${said[@]}"
}

streams_must_fail() {
  sees 'a program that is content with any stream' all try_stream it "$(stub 'exit 0')" report "$game.orders" "$game.report"
}
