# The part `sources`: what is looked at in the sources, since no contract can say it.

# check_sources: each place that answers that memory was refused, by whether a comment there says
# that it passes on what failed below it.
# And how many functions have no clause that says what they return: the number of a crate only falls.
check_sources() {
  take_over tools/check/want_of_memory
  count_unstated tools/check/unstated.txt
  count_unmerged .
  count_wide crates
}

# count_unmerged FOLDER: whether no text has the marks of a merge that nobody finished.
count_unmerged() {
  local left=(--exclude-dir=.git --exclude-dir=out --exclude-dir=.tried)
  count 'a merge that is not finished' "$(grep -rInE "${left[@]}" --include='*.*' '^(<{7}|>{7}) ' "$1" | head -n 3)"
}

# count_wide FOLDER: whether no comment of a source is wider than 100 columns, which no layout looks at.
count_wide() {
  count 'a comment wider than 100 columns' "$(grep -rnP --include='*.rt' '^(?=\s*//).{101}' "$1" | cut -c 1-120 | head -n 3)"
}

# count_unstated FILE: whether each crate has as many functions without an `ensures` as that file says.
count_unstated() { count 'functions without an ensures' "$(tools/unstated --check --allowed "$1")"; }

sources_must_fail() {
  printf 'fn it() -> Fault {\n    Fault::Memory\n}\n' > "$scratch/source.rt"
  sees 'want of memory that no comment says' 1 take_over tools/check/want_of_memory "$scratch/source.rt"
  take_over tools/check/want_of_memory --self-test
  sed 's/^page .*/page 1/' tools/check/unstated.txt > "$scratch/unstated.txt"
  sees 'a function without an ensures that is one too many' 1 count_unstated "$scratch/unstated.txt"
  mkdir -p "$scratch/unmerged" && printf 'a line\n<<<<<<< HEAD\n' > "$scratch/unmerged/page.md"
  sees 'a merge that is not finished' 1 count_unmerged "$scratch/unmerged"
  mkdir -p "$scratch/wide" && printf '    // %0100d\n' 0 > "$scratch/wide/source.rt"
  sees 'a comment wider than 100 columns' 1 count_wide "$scratch/wide"
}
