# The part `post`: a game by mail, from the inbox to the outbox.

# The modules of umpire_post/tests, the longest first, and the parts of one.
post_modules=(test_killed.Rounds test_killed.Steps test_killed.Full test_killed.Clubs test_ten_rounds test_answered test_six_rounds test_evenings test_clubs
  test_faults test_deadlines test_page test_delivery test_damaged test_threats test_messages)
# Those of messages from strangers, in parts that run side by side.
post_modules+=(test_hostile.MadeByChance.test_{first,second,third,fourth} test_hostile.Attacks.test_{first,second,third,fourth} test_hostile.Failing
  test_arrival)

# run_tests TESTS [FOLDER]: runs tests of umpire_post in a folder that has it, this one where none is
# named, by the programs that are tried, and counts each test.
run_tests() {
  local told=$scratch/tests umpire own
  umpire=$(realpath "$program") own=$(realpath "$desk")
  (cd "${2:-.}" && UMPIRE=$umpire UMPIRE_DESK=$own PYTHONDONTWRITEBYTECODE=1 python3 -m unittest "umpire_post.tests.$1") > "$told" 2>&1
  awk -v name="$1" '
    /^(FAIL|ERROR): / { failed++; print "check: FAILED: " $2 " of " name }
    /^Ran [0-9]+ test/ { ran = $2 }
    END { if (!ran) { failed = 1; ran = 1; print "check: FAILED: no test of " name " ran" }
          print (ran > failed ? ran - failed : 0) " passed, " failed + 0 " failed" }' "$told" > "$told.counts"
  take_over cat "$told.counts"
  ! grep -q '^FAILED\|Error' "$told" || tail -n 20 "$told" | cut -c 1-160
}

# has_all_modules: each module of tests is run.
has_all_modules() {
  local path name
  for path in umpire_post/tests/test_*.py; do
    name=${path##*/} name=${name%.py}
    count "$name" "$([[ " ${post_modules[*]} " == *" $name"[\ .]* ]] || echo 'no part of the check runs it')"
  done
}

# post_answers WORDS STATUS: ./post answers these words, and has no program to call.
post_answers() {
  # shellcheck disable=SC2086
  ./post $1 < /dev/null > "$scratch/out" 2> "$scratch/err"
  set -- "$1" "$?" "$2"
  count "./post $1" "$([ "$2" = "$3" ] || echo "its status is $2 and not $3")"
}

check_post() {
  local words
  has_all_modules
  side_by_side run_tests "${post_modules[@]}"
  for words in '' nonsense new 'new x ANN=a@x.org' in 'round' 'send x --sent --again' 'status' 'in x --accept 1 --done 1' 'due x' \
    'club x ANN=a@x.org' 'status x --wait -1' 'status x --wait soon'; do post_answers "$words" 1; done
  for words in --help $(sed -n '/^Commands:/,/^$/s/^  \([a-z]*\) .*/\1,--help/p' tools/help/post.txt); do post_answers "${words/,/ }" 0; done
}

# wrong_post SCRIPT FILE: makes a copy of the post in which a script of sed has changed a file, and
# prints where it is.
wrong_post() {
  local wrong=$scratch/wrong-post
  rm -rf "$wrong" && mkdir "$wrong"
  cp -r umpire_post "$wrong" && ln -s "$PWD/games" "$PWD/docs" "$PWD/post" "$wrong/"
  sed -i -e "$1" "$wrong/umpire_post/$2"
  ! cmp -s "umpire_post/$2" "$wrong/umpire_post/$2" || echo 'nothing was changed'
  echo "$wrong"
}

# sees_wrong_post WHAT: the tests see one way in which a post is wrong.
sees_wrong_post() {
  case $1 in
    anybody)
      sees 'a post that takes sheets from anybody' 1 run_tests test_messages \
        "$(wrong_post 's/player not in reading.senders/False/' reading.py)"
      ;;
    key)
      sees 'a post that shows the key' 1 run_tests test_threats.Threats.test_a_key_among_the_orders_is_not_put_into_the_file \
        "$(wrong_post 's/if player.key and any(/if False and any(/' reading.py)"
      ;;
    guesses)
      sees 'a post that compares any number of keys' 1 run_tests test_threats.Threats.test_after_five_wrong_keys_within_a_day_sheets_wait_for_the_umpire \
        "$(wrong_post 's/MOST_WRONG_KEYS = 5/MOST_WRONG_KEYS = 50/' reading.py)"
      ;;
    raises) sees 'a post that an error of the library ends' 1 run_tests test_hostile.Failing.test_what_the_library_raises_sets_the_message_aside \
      "$(wrong_post 's/except Exception:/except ZeroDivisionError:/' message.py)" ;;
    fault) sees 'a post that a fault of its own ends' 1 run_tests test_answered.Failing.test_in_the_answer \
      "$(wrong_post 's/except Exception as wrong:/except ZeroDivisionError as wrong:/' intake.py)" ;;
    strangers) sees 'a post that answers every stranger' 1 run_tests test_answered.Strangers.test_all_of_them_get_so_many_answers_a_day \
      "$(wrong_post 's/len(self.recent) >= self.most/False/' strangers.py)" ;;
    flood) sees 'a post that answers whatever comes in a player'"'"'s name' 1 \
      run_tests test_answered.Strangers.test_an_address_of_a_player_is_answered_so_often_a_day \
      "$(wrong_post 's/MOST_TO_PLAYER = 20/MOST_TO_PLAYER = 50/' strangers.py)" ;;
    older) sees 'an older sheet in place of a newer one' 1 run_tests test_arrival.Newest.test_an_older_message_replaces_no_newer_sheet \
      "$(wrong_post 's/DELIVERY = .*/DELIVERY = re.compile("no number")/' sources.py)" ;;
    closing) sees 'a closing among the orders' 1 run_tests test_messages "$(wrong_post 's/"kind regards", //' prose.py)" ;;
    step) sees 'a step that is not finished' 1 run_tests test_killed.Steps.test_undo "$(wrong_post 's/yield finish(top)/yield None/' disk.py)" ;;
    twice)
      sees 'a letter that is sent twice' 1 run_tests test_killed.Rounds.test_send \
        "$(wrong_post 's/handed = path.with_suffix(HANDED_OVER)/handed = path/; s/    move(path, handed)/    pass/' delivery.py)"
      ;;
    half)
      sees 'a post that believes half a report' 2 run_tests test_faults.Halves \
        "$(wrong_post 's/if not last and not _is_over(lines, players):/if False:/' programs.py)"
      ;;
    game)
      sees 'a message for one game that counts in another' 1 run_tests test_clubs.Routing.test_by_the_letter_that_it_answers \
        "$(wrong_post 's/if answered.endswith(it.club.identity_end)/if answered/' routing.py)"
      ;;
    lock)
      sees 'a command that does not wait for another' 2 run_tests test_faults.Locked \
        "$(wrong_post 's/until = time.monotonic() + seconds/until = time.monotonic() - 1/' disk.py)"
      ;;
    bankrupt)
      sees 'a bankruptcy of which nobody was told' 1 run_tests test_evenings.Outlook.test_a_bankruptcy_of_which_no_letter_has_told \
        "$(wrong_post 's/    if not goes:/    if False:/' rounds.py)"
      ;;
    letter) sees 'another letter' 1 run_tests test_six_rounds "$(wrong_post '0,/It counts/s//It counted/' tests/six-rounds.outbox)" ;;
  esac
}

post_must_fail() { side_by_side sees_wrong_post letter twice step half lock bankrupt game key anybody guesses raises fault strangers flood older closing; }
