#!/bin/bash
# Runs the program `ld` with the caller's words and streams, in the caller's folder: the proved program, if it is built
# and no source is newer. `./ld --help` lists the words; `./ld --build` proves and builds the program.
#
# Without a proved program, the toolchain's checked build of the same sources answers. Nothing of it is proved, each
# call compiles anew, and it sees the whole input before it answers. Standard error says so in one line.
root=$(cd "$(dirname "${BASH_SOURCE[0]}")" && pwd) || exit 1
crate=$root/crates/ld_program
program=$crate/out/ld_program

say() {
  echo "ld: $1" >&2
}

# The words that a call can have. (docs/COMMANDS.md)
help() {
  cat <<'END'
./ld replay FOLDER.. < LINES    answers lines of commands over the courses of 1 to 64 folders
./ld keep FOLDER.. < LINES      the same, and keeps what is done in the file ld.journal of this folder
./ld check FOLDER               says whether a course is right, or its first fault
./ld rank FOLDER                says whether its rules can set each other off for too long
./ld canon FOLDER               prints its documents in their canonical form
./ld gen NUMBER PERSONS         answers lines of its own making, and prints what they come to
./ld --build                    proves and builds the program, in one to two hours
END
}

# Whether a proved program is there that no source is newer than. The crates of tests are no part of it.
is_proved() {
  [ -x "$program" ] && [ -z "$(cd "$root" && find crates crates.txt \
    \( -name '*.rt' -o -name '*.antt' -o -name crates.txt \) -not -path '*/out/*' -not -path '*_tests/*' \
    -newer "$program" -print -quit)" ]
}

needs_toolchain() {
  if ! command -v rt >/dev/null; then
    say "the Rattle toolchain is not here: its command 'rt' is not on the PATH"
    exit 1
  fi
}

build() {
  needs_toolchain
  say "proving and building the program; the first time takes one to two hours (README.md)"
  python3 -B "$root/build.py"
}

# Answers with the toolchain's checked build, which runs in a folder of its own: so the documents of each folder
# among the words behind the verb are copied there, and the folder is named after its place among the words. The
# words of `gen` name no folder. Only `replay` reads input.
answer_unproved() {
  local room words=() data=() word document when='in one to two minutes'
  case $1 in
    replay) when='one to two minutes after its input is closed' ;;
    check | rank | canon | gen) ;;
    keep)
      say "'keep' writes a journal, so it needs the proved program: './ld --build' makes it"
      return 1
      ;;
    *)
      say bad-words
      help >&2
      return 2
      ;;
  esac
  needs_toolchain
  say "not proved: the toolchain's checked build answers $when; './ld --build' proves and builds the program"
  room=$(mktemp -d) || return 1
  # shellcheck disable=SC2064
  trap "rm -rf '$room'" EXIT
  : >"$room/input" || return 1
  if [ "$1" = replay ]; then
    cat >"$room/input" || return 1
  fi
  if [ "$(wc -c <"$room/input")" -gt "$((64 << 20))" ]; then
    say 'the checked build takes at most 64 MiB of input'
    return 1
  fi
  for word in "$@"; do
    if [ "${#words[@]}" -gt 0 ] && [ "$1" != gen ] && [ -d "$word" ]; then
      for document in "$word"/*.json; do
        [ -f "$document" ] && data+=(--data "folder${#words[@]}/${document##*/}=$(realpath "$document")")
      done
      word=folder${#words[@]}
    fi
    words+=("$word")
  done
  (cd "$crate" && rt try --seconds 300 "${data[@]}" -- "${words[@]}") <"$room/input" 2>"$room/said"
  end_as_said "$room/said"
}

# Ends as the program did, and says what it said. A build or a run that came to no end is shown with status 1.
end_as_said() {
  local status
  status=$(sed -n '$s/^run=ended status=\([0-9]*\) .*/\1/p' "$1")
  if [ -z "$status" ]; then
    cat "$1" >&2
    say 'the checked build gave no answer (it writes at most 1 MiB, in at most five minutes)'
    return 1
  fi
  grep '^ld: ' "$1" >&2
  return "$status"
}

if [ "$1" = --build ]; then
  is_proved || build
elif [ "$1" = --help ]; then
  help
elif is_proved; then
  exec "$program" "$@"
else
  answer_unproved "$@"
fi
