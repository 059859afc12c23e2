# The part `edits`: whether each wrong body can still be put in, and compiles then. `./check
# wrong-bodies` has the prover refuse them.

# read_edit EDIT FOLDER: puts into the caller's `texts` the files of the crate in that folder as the
# edit changes them, and into its `why` why it cannot be put in; nothing where it can. The text of
# each `old:` must stand once in the file that was named last, as the pairs before it leave that
# file.
read_edit() {
  local line file='' old='' new rest pairs=0
  texts=() why=
  while IFS= read -r line || [ -n "$line" ]; do
    case $line in
      'file: '*) file=${line#file: } ;;
      'old: '*) old=${line#old: } ;;
      new:*)
        new=${line#new:} new=${new# }
        if [ ! -f "$2/$file" ] || [ -z "$old" ]; then
          why="before a 'new:' it names no file of the crate, or no text"
          return
        fi
        [ -n "${texts[$file]+read}" ] || texts[$file]=$(< "$2/$file")
        rest=${texts[$file]//"$old"/}
        if ((${#texts[$file]} - ${#rest} != ${#old})); then
          why="this does not stand once in $file: $old"
          return
        fi
        texts[$file]=${texts[$file]/"$old"/"$new"}
        old='' pairs=$((pairs + 1))
        ;;
    esac
  done < "$1"
  ((pairs > 0)) || why='it changes nothing'
}

# look_at_edit EDIT CRATE: counts whether the edit can be put into the crate. Fails where it cannot.
look_at_edit() {
  local why
  local -A texts=()
  read_edit "$1" "crates/$2"
  [[ $1 == *.edit ]] || why='its name does not end in .edit'
  count "$1" "$why"
  [ -z "$why" ]
}

# check_edits: counts each wrong body by whether it can be put in, so that none is forgotten as the
# sources change, and, without the word quick, those of wrong-bodies/ by whether they compile then.
# A crate has ten at most in wrong-bodies/.
check_edits() {
  local edit crate sound=()
  local -A of_crate=()
  for edit in crates/*/must-fail/* wrong-bodies/*/*; do
    case $edit in
      *\**) continue ;;
      wrong-bodies/*) crate=${edit#wrong-bodies/} crate=${crate%%/*} of_crate[$crate]=$((${of_crate[$crate]:-0} + 1)) ;;
      *) crate=${edit#crates/} crate=${crate%%/*} ;;
    esac
    look_at_edit "$edit" "$crate" && [[ $edit != crates/* ]] && sound+=("$edit")
  done
  for crate in "${!of_crate[@]}"; do
    count "the wrong bodies of $crate" "$( ((of_crate[$crate] <= 10)) || echo "there are ${of_crate[$crate]}, and not ten at most")"
  done
  ((${#sound[@]} > 0)) || count wrong-bodies 'there are none'
  [ "${1:-}" = quick ] || compile_edits "${sound[@]}"
}

edits_must_fail() {
  printf 'file: src/lib.rt\nold: a text that is gone\nnew: another\n' > "$scratch/gone.edit"
  sees 'a wrong body of a text that is gone' 1 look_at_edit "$scratch/gone.edit" tables
  printf 'file: src/none.rt\nold: mod\nnew: mod\n' > "$scratch/none.edit"
  sees 'a wrong body of a file that is gone' 1 look_at_edit "$scratch/none.edit" tables
  : > "$scratch/nothing.edit"
  sees 'a wrong body that changes nothing' 1 look_at_edit "$scratch/nothing.edit" tables
}

# copy_tree FOLDER: copies the crates there, without what is proved of them and without their
# must-fail/.
copy_tree() {
  local crate
  mkdir -p "$1/crates"
  cp -a crates.txt HANDLES "$1"
  for crate in crates/*; do
    mkdir "$1/$crate"
    find "$crate" -mindepth 1 -maxdepth 1 ! -name out ! -name must-fail -exec cp -a -t "$1/$crate" {} +
  done
}

# compile_edits EDIT..: counts each by whether it compiles. As many as leave one another's text
# alone are put into a copy of the tree together, and `rt try` compiles the program there, which
# proves nothing; what was not put in has its turn after that. Where something does not compile, all
# of them that change such a file are told of.
compile_edits() {
  local copy=$scratch/compiled here later edit file why
  local -A texts=()
  while (($# > 0)); do
    here=() later=()
    rm -rf "$copy"
    copy_tree "$copy"
    # (the program calls all crates that have wrong bodies but treasury, moves and the desk's, which then
    # are compiled too)
    sed -i '/^umpire_cli:/ s/$/ treasury moves hints desk_base desk_trials desk_check desk_state desk_why desk_round desk_may desk_moves/' "$copy/crates.txt"
    for edit in "$@"; do
      read_edit "$edit" "$copy/crates/$(crate_of "$edit")"
      if [ -n "$why" ]; then
        later+=("$edit")
        continue
      fi
      here+=("$edit")
      for file in "${!texts[@]}"; do
        printf '%s\n' "${texts[$file]}" > "$copy/crates/$(crate_of "$edit")/$file"
      done
    done
    (cd "$copy/crates/umpire_cli" && rt try --steps 1000 --seconds 5 -- report) < /dev/null > "$scratch/tried" 2>&1
    if ! tell_compiled "$copy" "${here[@]}"; then
      count 'the wrong bodies compile' "$(grep -m 1 error "$scratch/tried" || tail -n 1 "$scratch/tried")"
      return
    fi
    set -- "${later[@]}"
  done
}

# crate_of EDIT: the crate of which that of wrong-bodies/ is a wrong body.
crate_of() {
  local name=${1#wrong-bodies/}
  echo "${name%%/*}"
}

# tell_compiled COPY EDIT..: counts these edits, which were put into the copy together, by what `rt
# try` said, and adds those of which nothing is known yet to the caller's `later`. Fails where it
# tells of no edit.
tell_compiled() {
  local copy=$1 edit file said told=0
  shift
  if [[ $(tail -n 1 "$scratch/tried") == *proved=no* && $(tail -n 1 "$scratch/tried") != *run=none* ]]; then
    for edit in "$@"; do count "$edit" ''; done
    return
  fi
  for edit in "$@"; do
    said=
    while IFS= read -r file; do
      said+=$(grep -m 1 -F "$copy/crates/$(crate_of "$edit")/${file#file: }:" "$scratch/tried" | grep ': error')
    done < <(grep '^file: ' "$edit" | sort -u)
    if [ -n "$said" ]; then
      told=$((told + 1))
      count "$edit" "it does not compile, or another wrong body of its file: ${said#"$copy"/}"
    else
      later+=("$edit")
    fi
  done
  ((told > 0))
}

# try_wrong_bodies [CRATE..]: puts each wrong body of these crates into a copy of the tree, where
# the prover must refuse it for what it means: one that is refused since a proof names what it took
# away counts as failed. (The copy takes over what is proved already of the crates below.)
try_wrong_bodies() {
  local copy=$scratch/tree crate names=() line all=0
  (($# > 0)) || set -- wrong-bodies/*
  for crate in "$@"; do
    crate=${crate#wrong-bodies/}
    if [ -d "wrong-bodies/$crate" ]; then names+=("$crate"); else count "wrong-bodies/$crate" 'there is no such folder'; fi
  done
  copy_tree "$copy"
  tools/below "${names[@]}" > "$scratch/below"
  while read -r crate; do
    [ ! -d "crates/$crate/out" ] || cp -a "crates/$crate/out" "$copy/crates/$crate"
  done < "$scratch/below"
  for crate in "${names[@]}"; do
    cp -a "wrong-bodies/$crate" "$copy/crates/$crate/must-fail"
  done
  while IFS= read -r line; do
    printf '%s\n' "$line"
    [[ $line == 'rt: must-fail '* ]] || continue
    all=$((all + 1))
    case $line in
      *': refused, as it must be: '* | *': refused, as it must be (only by a limit '*) passed=$((passed + 1)) ;;
      *) failed=$((failed + 1)) ;;
    esac
  done < <(cd "$copy" && rt must-fail "${names[@]}" 2>&1)
  for crate in "${names[@]}"; do
    set -- "wrong-bodies/$crate"/*.edit
    all=$((all - $#))
  done
  # (each has its line, unless rt stopped before it)
  ((all == 0)) || count 'each wrong body is tried' "$((-all)) were not, or rt told of more"
}
