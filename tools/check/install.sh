# The part `install`: what ./install puts in its place, and removes, and whether another link gives
# the same bytes.

# installed PREFIX: the programs are there as they were built, with manual pages of all their words,
# and completions.
installed() {
  local name page word why
  for name in umpire desk post; do
    page=umpire-$name
    case $name in
      umpire) page=umpire why=$program ;;
      desk) why=$desk ;;
      post) why=post ;;
    esac
    count "$page, installed" "$(cmp "$why" "$1/bin/$page" 2>&1)"
    why=
    for word in $(words_of "$name"); do
      grep -qx "\.B $word" "$1/share/man/man1/$page.1" || why+=" it has no word $word;"
    done
    grep -q "postal umpire $(version)\"$" "$1/share/man/man1/$page.1" || why+=' it has another version;'
    count "the manual page of $page" "${why# }"
    word=$(words_of "$name" | head -n 1)
    why=$(bash -c ". '$1/share/bash-completion/completions/$page'; COMP_WORDS=($page ${word%?}) COMP_CWORD=1; _$name; echo \${COMPREPLY[0]}" 2>&1)
    count "the completions of $page" "$([ "$why" = "$word" ] || echo "they do not complete $word: $why")"
  done
}

# left PREFIX: no file is left there.
left() { count "files below $1 after --uninstall" "$(find "$1" -type f ! -name another -printf ' %P is left;')"; }

# link_again CRATE: links the program of the crate once more, in another folder, from what rt ci
# compiled. Where that is not kept, nothing is compared.
link_again() {
  local kit out=crates/$1/out
  [ -f "$out/$1.o" ] || return 0
  kit=$(dirname "$(rt doc)")
  "$kit/bin/rattle-link" --target x86_64-unknown-linux-gnu --toolchain "$kit/toolchain" -o "$scratch/linked" "$out/$1.o" \
    "$kit/c/libos_c.a" "$kit/c/liblibc_c.a" > "$scratch/err" 2>&1
  count "$1, linked again" "$(cmp "$out/$1" "$scratch/linked" 2>&1)"
}

check_install() {
  local prefix=$scratch/prefix
  mkdir -p "$prefix/bin" && : > "$prefix/bin/another"
  ./install "$prefix" > "$scratch/out" 2>&1 || count ./install "its status is $?: $(tail -n 1 "$scratch/out")"
  installed "$prefix"
  "$prefix/bin/umpire" report < "$game.orders" > "$scratch/out" 2> "$scratch/err"
  judge 'umpire, installed' $? 0 "$game.report" none
  count 'umpire-post, installed' "$(PYTHONDONTWRITEBYTECODE=1 "$prefix/bin/umpire-post" --help 2>&1 | cmp - <(sed 's/: post /: umpire-post /' tools/help/post.txt) 2>&1)"
  ./install --uninstall "$prefix" 2> /dev/null
  left "$prefix"
  count 'what ./install did not put there' "$([ -f "$prefix/bin/another" ] || echo 'it was removed')"
  link_again umpire_cli
  link_again desk_cli
}

install_must_fail() {
  local wrong=$scratch/wrong-prefix
  mkdir -p "$wrong/bin" && : > "$wrong/bin/umpire"
  sees 'an install without anything in its place' all installed "$wrong"
  sees 'a file that is left' 1 left "$wrong"
}
