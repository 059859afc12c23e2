# The part `proofs`: rt ci proves every crate from nothing, but for what it proved before on this
# machine of the same files, tries the wrong bodies of crates/*/must-fail, and runs the tests and
# the programs.

# made_at FOLDER: the second of the clock at which the folder was made; where that can't be told,
# the start of the check.
made_at() {
  local at
  at=$(stat -c %W "$1" 2> /dev/null)
  ((at >= begun)) && echo "$at" || echo "$begun"
}

# watch: passes on what rt ci prints, and notes when each of its parts began and ended. A crate's
# folder out/ is made anew as its proof begins; its tests are proved beside it.
watch() {
  local line edits_from='' edits_to='' edits=0
  while IFS= read -r line; do
    printf '%s\n' "$line"
    if [[ $line =~ ^rt:\ ([a-z0-9_]+)(:\ its\ tests\ are)?\ (NOT\ PROVED|proved) ]]; then
      part "$(made_at "crates/${BASH_REMATCH[1]}/out")" "$EPOCHSECONDS" \
        "the proof of ${BASH_REMATCH[2]:+the tests of }${BASH_REMATCH[1]}"
    elif [[ $line == 'rt: '*': trying its must-fail edits '* ]]; then
      edits_from=${edits_from:-$EPOCHSECONDS}
    elif [[ $line == 'rt: must-fail '* ]]; then
      edits=$((edits + 1)) edits_to=$EPOCHSECONDS
    fi
  done
  [ -z "$edits_from" ] || part "$edits_from" "${edits_to:-$EPOCHSECONDS}" "the must-fail edits, $edits of them, beside proofs"
  part "${edits_to:-$begun}" "$EPOCHSECONDS" 'the tests and the program, run as rt ci runs them'
}

# proofs_at_once: how many proofs rt ci makes at once: one a processor, if each has 4 GB of memory. By
# that number rt ci has one process for each proof. If it chose, it would give a proof the processors
# that no other proof waits for, by which the proof costs a tenth more.
proofs_at_once() {
  awk -v most="$(nproc)" '
    /^MemAvailable:/ { count = int($2 / 4000000) }
    END { print count < 1 ? 1 : count < most ? count : most }
  ' /proc/meminfo
}

# check_proofs: runs rt ci, shows it as it goes, and takes over its counts.
check_proofs() {
  local status line
  RT_JOBS=$(proofs_at_once) rt ci | watch | tee "$scratch/ci"
  status=${PIPESTATUS[0]}
  if [[ $(tail -n 1 "$scratch/ci") =~ ^([0-9]+)\ passed,\ ([0-9]+)\ failed$ ]]; then
    passed=$((passed + BASH_REMATCH[1])) failed=$((failed + BASH_REMATCH[2]))
    ((status == 0 || BASH_REMATCH[2] > 0)) || count 'rt ci' "its status is $status"
  else
    count 'rt ci' 'it ended without counts'
  fi
  # (no goal is named where the prover refuses a body for its form, as it would a right one)
  while IFS= read -r line; do
    count "$line" 'for no goal'
  done < <(grep -E '^rt: must-fail .*: refused, as it must be$' "$scratch/ci")
  return "$status"
}

# answer_of STATUS LINE..: runs the part on what another rt would print.
answer_of() {
  local ended=$1
  shift
  printf '%s\n' "$@" > "$scratch/printed"
  rt() {
    cat "$scratch/printed"
    return "$ended"
  }
  check_proofs
}

proofs_must_fail() {
  sees 'proofs that failed' 2 answer_of 1 'rt: FAILED: reach, sheets' '3 passed, 2 failed'
  sees 'an rt ci that was cut off' 1 answer_of 137 'rt: tables proved'
  sees 'an rt ci whose counts are not its status' 1 answer_of 1 '5 passed, 0 failed'
  sees 'a wrong body that is refused for no goal' 1 answer_of 0 'rt: must-fail it.edit: refused, as it must be' '5 passed, 0 failed'
}
