# The part `docs`: the names that the documents cite exist, the picture of the crates is that of
# crates.txt, the rulebook and the counts of what the claims rest on are fresh, a second count gives
# the same and finds each definition that a clause reaches in a chapter, the examples at the roots of
# crates are tests, each lemma is cited and each import used, and the pages for players have contents,
# links that lead somewhere, examples of games and no unwanted words, their card is fresh, and no other
# document, nor the post's messages and help, nor a comment of a script or a crate, has a phrase that is
# unwanted everywhere.

check_docs() {
  take_over tools/names
  take_over tools/layers
  take_over tools/claim --check
  take_over tools/recount
  take_over tools/rulebook/tests.py
  take_over tools/check/examples
  take_over tools/lemmas
  take_over tools/check/pages
  take_over tools/card --check
  count_phrases "$top"
  count_comments "$top/crates"
}

# count_phrases TOP: looks for the phrases that tools/check/unwanted-words.txt wants nowhere, in the
# documents that are not for players alone, in the messages and help of the post, and in the comments of
# scripts. What stands between backquotes is not looked at.
count_phrases() {
  local phrases file
  phrases=$(sed '1,/^# Everywhere/d' tools/check/unwanted-words.txt | cut -f 1 | paste -sd '|')
  while read -r file; do
    count "a phrase that is unwanted everywhere, in ${file#"$1"/}" \
      "$(sed '/^```/,/^```/s/.*//; s/`[^`]*`//g' "$file" | grep -niP "$phrases" | cut -c 1-120 | head -n 5)"
  done < <(find "$1"/*.md "$1/docs/developers" "$1/docs/rulebook/README.md" "$1/docs/umpires" "$1/docs/programs" \
    "$1/bench" "$1/tools" "$1/umpire_post" "$1"/{check,install,post,release,run-program,try} -type f \
    ! -name '*.mbox' ! -name '*.outbox' ! -name '*.pyc' ! -name unwanted-words.txt ! -name docs.sh ! -path '*/boards*' \
    ! -path '*/tools/rulebook/own/*' | sort)
}

# count_comments FOLDER: looks for the same phrases in the comments of crates there. `BUY of` is the order.
count_comments() {
  local phrases
  phrases=$(sed '1,/^# Everywhere/d' tools/check/unwanted-words.txt | cut -f 1 | paste -sd '|')
  count 'a phrase that is unwanted everywhere, in the comments of crates' \
    "$(grep -rnE '^ *(//|--)' "$1" --include='*.rt' --include='*.antt' --exclude-dir=out |
      sed 's/`[^`]*`//g; s/BUY of//g' | grep -iP ":[0-9]+: *(//|--).*($phrases)" | cut -c 1-160 | head -n 5)"
}

# wrong_pages TOP: looks at pages there in which one thing of each kind is wrong.
wrong_pages() {
  cp docs/players/*.md "$1/docs/players/"
  printf '\nThe line is ruled.\n' >> "$1/docs/players/playing.md"
  sed -i '/^- \[Stops\](/d' "$1/docs/players/map.md"
  sed -i 's/(#by-post)/(#by-mail)/' "$1/docs/players/if-you-know-1830.md"
  sed -i 's/^SOLD DH BOB 105$/SOLD DH BOB 106/' "$1/docs/players/playing.md"
  yes word | head -n 16000 >> "$1/docs/players/index.md"
  rm "$1/games" && mkdir "$1/games" && ln -s "$PWD"/games/* "$1/games/"
  rm "$1/games/codes" && cp -r games/codes "$1/games"
  sed -i '1s/$/ A seat./' "$1/games/codes/T4-no-consent.orders"
  take_over tools/check/pages "$1"
}

docs_must_fail() {
  local wrong=$scratch/wrong-docs
  mkdir "$wrong"
  find . -mindepth 1 -maxdepth 1 ! -name .git ! -name .tried -exec ln -s "$PWD/{}" "$wrong/" \;
  rm "$wrong/docs" "$wrong/tools"
  cp -r docs "$wrong" && mkdir "$wrong/tools" && ln -s "$PWD"/tools/* "$wrong/tools/"
  # shellcheck disable=SC2016
  printf '\n`tables: a_name_that_is_gone`\n' >> "$wrong/docs/developers/architecture.md"
  sees 'a name that is gone' 1 take_over "$wrong/tools/names"
  rm "$wrong/crates" && mkdir "$wrong/crates" && ln -s "$PWD"/crates/* "$wrong/crates/"
  rm "$wrong/crates/market" && cp -r crates/market "$wrong/crates"
  sed -i '/^ *--/!s/\bsquare_before\b/before/g' "$wrong/crates/market/specs/Moves.antt"
  sees 'a name with two meanings, and the page that has the old one' 3 take_over "$wrong/tools/names"
  cp crates/market/specs/Moves.antt "$wrong/crates/market/specs"
  printf '\nnobody_cites : (n : ℕ) → n ≡ n\nnobody_cites n = refl\n' >> "$wrong/crates/market/proofs/Chart.antt"
  sed -i '2i use Rattle.tables.specs.Train.{kinds}' "$wrong/crates/market/proofs/Chart.antt"
  sees 'a lemma that nothing cites, and an import that nothing uses' 2 take_over tools/lemmas --crates "$wrong/crates"
  sees 'a lemma more that states again what another states' 7 take_over tools/lemmas --again 6
  printf '\nAnother line.\n' >> "$wrong/docs/rulebook/13-sales.md"
  sees 'a chapter that is not fresh' 1 take_over "$wrong/tools/claim" --check
  cp docs/rulebook/13-sales.md "$wrong/docs/rulebook"
  # shellcheck disable=SC2016
  sed -i 's/` sells n shares /` sells k shares /' "$wrong/docs/players/rules.md"
  sees 'a chapter in other words than the rules for players' 1 take_over "$wrong/tools/claim" --check
  sed -i 's/| SV | 20 |/| SV | 25 |/' "$wrong/docs/players/rules.md"
  sees 'a made table with another number' 2 take_over "$wrong/tools/claim" --check
  sed 's/^\(| `run`[^|]*| \)[0-9]*/\10/' docs/developers/claim.md > "$scratch/counts.md"
  sees 'a count that is not the other' 1 take_over tools/recount --counts "$scratch/counts.md"
  # shellcheck disable=SC2016
  sed '/^| `run`/s/`umpire: run`/&, `rounds: games_end_once`/' docs/developers/proof.md > "$scratch/clauses.md"
  sees 'a clause that the chapters leave out, and three counts without it' 4 take_over tools/recount --clauses "$scratch/clauses.md"
  # shellcheck disable=SC2016
  sed 's/`report: one_report`, //; s/, `report: one_report`//' docs/developers/proof.md > "$scratch/clauses.md"
  sees 'a clause that is gone, whose definitions others reach, in three counts' 3 take_over tools/recount --clauses "$scratch/clauses.md"
  rm -r "$wrong/docs" && cp -r docs "$wrong"
  sed -i 's/\bNoneHasCode\b/NoneHasIt/' "$wrong/docs/rulebook/36-desk.md"
  sees 'a definition that its chapter leaves out' 1 take_over "$wrong/tools/recount"
  cp docs/rulebook/36-desk.md "$wrong/docs/rulebook"
  # shellcheck disable=SC2016
  sed -i 's/`desk_cells: all_in_order`, //' "$wrong/docs/developers/proof.md"
  sees 'a sentence that is gone, with its chapter, names and counts' 4 take_over "$wrong/tools/claim" --check
  sed 's/^market: /&desk_base /' crates.txt > "$wrong/others.txt"
  sees 'a crate that stands on one above it' 1 take_over tools/layers --crates "$wrong/others.txt"
  sed '/>market</d' docs/crates.svg > "$wrong/crates.svg"
  sees 'a crate that the picture lacks' 1 take_over tools/layers --picture "$wrong/crates.svg"
  mkdir -p "$wrong-crates/sheets/src" "$wrong-crates/test_umpire/src"
  sed 's/collect(rt/collects(rt/' crates/sheets/src/lib.rt > "$wrong-crates/sheets/src/lib.rt"
  cp crates/test_umpire/src/examples.rt "$wrong-crates/test_umpire/src/"
  sees 'pages with an unwanted word, no contents, a link to nowhere, another report, too many words, and a comment with one' 6 \
    wrong_pages "$wrong"
  sed 's/ keep the earnings / keep it /' docs/players/formats.md > "$wrong/docs/players/formats.md"
  sees 'a card that is not made from the tables' 1 take_over "$wrong/tools/card" --check
  printf '\nWhat remains is dear while it lives.\n' >> "$wrong/docs/developers/architecture.md"
  sees 'a phrase that is unwanted everywhere' 1 count_phrases "$wrong"
  printf '// What falls to the next line.\n' >> "$wrong-crates/sheets/src/lib.rt"
  sees 'a comment of a crate with a phrase that is unwanted' 1 count_comments "$wrong-crates"
  sees 'an example that no test has' 1 take_over tools/check/examples "$wrong-crates"
}
