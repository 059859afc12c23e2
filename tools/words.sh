# Answers to command lines that run nothing, without a build; for a script, which sets `top` to the
# top of the repository. The texts are in tools/help.

# words_of NAME: the words of the program umpire or desk.
words_of() { sed -n '/^Commands:/,/^$/s/^  \([a-z]*\) .*/\1/p' "$top/tools/help/$1.txt"; }

# version: the version of the programs.
version() { sed -n 's/^pub(crate) const VERSION: &str = "\(.*\)";$/\1/p' "$top/crates/desk_cli/src/version.rt"; }

# show NAME FILE: writes the help, as the program does, and ends: the umpire has no command line for
# it, and so status 1.
show() {
  [ "$1" != umpire ] || { cat "$top/tools/help/$2.txt" >&2 && exit 1; }
  cat "$top/tools/help/$2.txt"
  exit 0
}

# refuse NAME WHY: says why the command line asks for nothing, and how to ask, and ends with status
# 1.
refuse() {
  { echo "error: $2" && echo && cat "$top/tools/help/$1.txt"; } >&2
  exit 1
}

# answer_at_once NAME WORDS..: ends the script where these words ask for help, or for nothing that
# the program has.
answer_at_once() {
  case ${2:-} in
    '') refuse "$1" "$1 takes a word" ;;
    --help | -h) show "$1" "$1" ;;
    help) if [ -f "$top/tools/help/$1-${3:-}.txt" ]; then show "$1" "$1-$3"; else show "$1" "$1"; fi ;;
    --version | -V) [ "$1" = umpire ] || { echo "$1 $(version)" && exit 0; } ;;
  esac
  words_of "$1" | grep -qx -e "$2" || refuse "$1" "$1 has no word '$2'"
  case $1:${3:-} in
    *: | desk:[!-]* | desk:--why) ;;
    desk:--help | desk:-h) show "$1" "$1-$2" ;;
    umpire:*) refuse "$1" "'$2' takes no word after it" ;;
  esac
}

# want_rt NAME: ends the script where Rattle's command is not there.
want_rt() {
  command -v rt > /dev/null || {
    echo "$1: Rattle's command rt is not on the path: put the kit's folder bin on it, as README.md says under 'Quick start'" >&2
    exit 1
  }
}
