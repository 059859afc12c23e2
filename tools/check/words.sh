# The part `words`: command lines of the programs, and of the scripts, which answer them without a
# build.

# try_words: no command line but `report`, `certs`, `verify` and `migrate` runs anything.
try_words() {
  local words
  for words in '' 'report extra' 'certs extra' 'verify extra' 'migrate extra' 'report certs' help --help 'report --help' nonsense REPORT; do
    # shellcheck disable=SC2086
    "$program" $words < "$game.orders" > "$scratch/out" 2> "$scratch/err"
    judge "umpire${words:+ $words}" $? 1 /dev/null some
  done
}

# try_desk_words: command lines of the desk that ask for nothing, and those that ask for help.
try_desk_words() {
  local words status
  for words in '' nonsense ROUND 'round extra' 'round OR2' 'round OR1.9' 'round OR99999.3' 'runs PR1 PR2' 'state SR1' 'check PR1' \
    'check --from' 'check --from x' 'explain Z9' '--why' 'state SR1 --before' 'bulletin SR1' 'bulletin --due' 'runs --before' 'page SR1' 'page --before' lays 'lays XYZ' \
    'lays PRR' 'lays PRR --after OR9.1' 'lays PRR --after X1' may 'may NOBODY' 'may ANN BOB' best 'best PRR 7' 'best PRR 2' \
    'trial NOBODY' 'trial ANN' 'trial --after PR1' hex 'hex Z9' 'hex H10 H12' 'hex H10 --after SR1'; do
    # shellcheck disable=SC2086
    "$desk" $words < "$game.orders" > "$scratch/out" 2> "$scratch/err"
    judge "desk${words:+ $words}" $? 1 /dev/null some
  done
  for words in --help --version $(words_of desk | sed '/^help$/d; s/$/,--help/'); do
    # shellcheck disable=SC2086
    "$desk" ${words/,/ } < /dev/null > "$scratch/out" 2> "$scratch/err"
    words="desk ${words/,/ }" status=$?
    [[ $words != *' '*' --help' ]] || grep -q '^Example: .*desk ' "$scratch/out" || count "$words" 'it has no example'
    cp "$scratch/out" "$scratch/help"
    [ -s "$scratch/help" ] || count "$words" 'it writes nothing'
    judge "$words" "$status" 0 "$scratch/help" none
  done
  words=$("$desk" --version)
  count 'desk --version' "$([ "$words" = "desk $(version)" ] || echo "it is $words, and the source has $(version)")"
}

# compare_help FOLDER: the texts of tools/help are what the programs write.
compare_help() {
  local text
  rm -rf "$scratch/help-now" && mkdir "$scratch/help-now"
  tools/help/make "$program" "$desk" "$scratch/help-now"
  for text in "$scratch"/help-now/*.txt "$1"/*.txt; do
    text=${text##*/}
    count "the help in $text" "$(cmp -s "$scratch/help-now/$text" "$1/$text" || echo 'the program writes another: tools/help/make writes it')"
  done
}

# answers SCRIPT WORDS STATUS ERRORS: the script answers these words, on a tree without programs and
# where there is no rt.
answers() {
  local folder=$scratch/tree-of-scripts
  if [ ! -d "$folder" ]; then
    mkdir -p "$folder/crates/desk_cli" "$folder/bin"
    cp -r umpire desk try run-program install crates.txt tools "$folder" 2> /dev/null
    cp -r crates/desk_cli/src "$folder/crates/desk_cli"
    ln -s "$(command -v sh)" "$(command -v cat)" "$(command -v sed)" "$(command -v grep)" "$(command -v dirname)" "$(command -v awk)" \
      "$(command -v mkdir)" "$(command -v env)" "$folder/bin"
  fi
  # shellcheck disable=SC2086
  (cd "$folder" && PATH=$folder/bin "./$1" $2 < /dev/null > "$scratch/out" 2> "$scratch/err")
  set -- "$1" "$2" "$?" "$3" "$4"
  cp "$scratch/out" "$scratch/answer"
  [ "$4$5" != 0none ] || [ -s "$scratch/out" ] || count "./$1 $2" 'it writes nothing'
  judge "./$1 $2, without a build" "$3" "$4" "$scratch/answer" "$5"
  [ ! -e "$folder/crates/umpire_cli" ] || count "./$1 $2" 'it began a build'
}

# try_scripts: the scripts answer at once where they are asked for help or for nothing, and say what
# they lack.
try_scripts() {
  local words
  for words in '' --help nonsense 'report --help' 'report extra'; do answers umpire "$words" 1 some; done
  for words in '' nonsense; do answers desk "$words" 1 some; done
  for words in --help --version 'round --help' 'help round'; do answers desk "$words" 0 none; done
  for words in '' --help nonsense 'report extra' desk 'desk nonsense'; do answers try "$words" 1 some; done
  answers try 'desk state --help' 0 none
  answers install --help 0 none
  answers install --nonsense 1 some
  for words in 'umpire report' 'desk state' 'try report' 'try desk state'; do
    answers "${words%% *}" "${words#* }" 1 some
    count "./$words without rt" "$(grep -q "Rattle's command rt is not on the path" "$scratch/err" || echo 'it does not say what it lacks')"
  done
}

# try_scripts_elsewhere: ./umpire and ./desk run what is built, called from another folder.
try_scripts_elsewhere() {
  (cd games && ../umpire report < "${game#games/}.orders") > "$scratch/out" 2> "$scratch/err"
  judge './umpire called in games/' $? 0 "$game.report" none
  (cd games && ../desk round < "${game#games/}.orders") > "$scratch/out" 2> "$scratch/err"
  set -- "$?"
  round_part "$game.report" > "$scratch/part"
  judge './desk called in games/' "$1" 0 "$scratch/part" none
  echo 'GAME 1831 1' | ./umpire report > "$scratch/out" 2> "$scratch/err"
  set -- "$?"
  echo 'FILE REFUSED F1' > "$scratch/part"
  judge './umpire with a file that is refused' "$1" 2 "$scratch/part" 'umpire: `./desk check` says which line .*'
}

# check_words: with the word quick it leaves out what runs the proved programs.
check_words() {
  try_words
  try_desk_words
  compare_help tools/help
  try_scripts
  [ "${1:-}" = quick ] || try_scripts_elsewhere
}

words_must_fail() {
  local program desk
  program=$(stub 'exit 0') desk=$program
  sees 'a program that answers any word' all try_words
  mkdir -p "$scratch/wrong-help"
  cp tools/help/*.txt "$scratch/wrong-help" && changed tools/help/umpire.txt "$scratch/wrong-help/umpire.txt"
  program=$1 desk=$2
  sees 'a help that is not what the program writes' 2 compare_help "$scratch/wrong-help"
}
