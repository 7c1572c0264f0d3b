# shellcheck shell=bash
# What ./rostrum and ./orders have in common: their input, and what comes of a program that is run on it. To be sourced with `here` the
# repository's root, `tool` the name for messages, and a function `usage`.
# Exit status: 0 what was asked for is written; 1 it is not; 2 it was asked for wrongly, or something is missing that is named.
# shellcheck source=tests/kit.sh
source "${here:?}/tests/kit.sh"
: "${tool:?}"

# more than any text or sheet that is read to its end; only so that an endless input ends
most=16777216

# a message, and the end: fail STATUS TEXT
fail() {
  echo "$tool: $2" >&2
  exit "$1"
}

# a message with the usage below it, for a command that was asked for wrongly
fail_usage() {
  echo "$tool: $1" >&2
  usage >&2
  exit 2
}

# A stream that is closed would be taken by the next file that is opened, so this comes first. Where standard error was closed, the shell has
# opened the script itself there.
check_streams() {
  if [ ! -e /dev/fd/2 ] || [ /dev/fd/2 -ef "$0" ]; then
    exec 2>/dev/null
  fi
  { true 3>&1; } 2>/dev/null || fail 1 "not written: standard output is closed"
  closed=
  { true 3<&0; } 2>/dev/null || {
    closed=1
    exec </dev/null
  }
}

# writes what the command says, which is words of this script and not a program's
write() {
  local status=0
  "$@" 2>"$room/said" || status=$?
  case $status in
  0) ;;
  141) exit 141 ;;
  *) fail 1 "not written: $(reason)" ;;
  esac
}

# why a command failed, by what it said last
reason() {
  local said
  said=$(tail -n 1 "$room/said")
  echo "${said##*: }"
}

# the version of the desk, and the commit where git knows it
version() {
  local commit
  commit=$(env -u GIT_DIR -u GIT_WORK_TREE git -C "$here" describe --always --dirty --exclude '*' 2>/dev/null) || commit=
  # a folder inside of another repository is not that one
  [ -e "$here/.git" ] || commit=
  [[ $commit != *-dirty ]] || commit="${commit%-dirty} with changes"
  echo "$tool $(sed -n 's/^#define DESK_VERSION //p' "$here/include/desk.h")${commit:+, commit $commit}"
}

# Sets `called`, the name of the input for messages, and copies the input to $room/input: whether it can be read is then known before
# anything is written.
take_input() {
  called=$1
  # on one line, whatever is in it
  [[ -n $called && $called != *[[:cntrl:]]* ]] || called=${called@Q}
  if [ "$1" = - ]; then
    called='standard input'
    [ -z "$closed" ] || fail 1 "$called: it is closed"
    if [ -t 0 ]; then
      usage >&2
      exit 2
    fi
  fi
  attend head -c "$most" -- "$1" >"$room/input" 2>"$room/said" || fail 1 "$called: $(reason)"
}

# Whether a file is a text: by its first byte, as the program scribe tells it too (§24.7). A file without a byte is a sheet.
is_text() {
  local byte
  byte=$(head -c 1 "$1" | od -A n -t u1)
  [ -n "$byte" ] && { [ "$byte" -ge 32 ] || [ "$byte" -eq 9 ] || [ "$byte" -eq 10 ] || [ "$byte" -eq 13 ]; }
}

# Runs a command so that a signal which ends this script ends it too; the shell hears of none while it waits for what is in front.
attend() {
  local status=0
  "$@" <&0 &
  player=$!
  wait "$player" 2>/dev/null || status=$?
  player=
  return "$status"
}

# Runs the proved program that `find_program` found: run NAME INPUT. A sentence on a refusal is told; where anything else is said, or it does
# not come to its end, that is told and is the end.
run() {
  local status=0
  watch_signals
  attend "${words[@]}" <"$2" 2>"$room/said" || status=$?
  tell_end "$1" "$status" "$(<"$room/said")"
}

play() {
  find_program "$1"
  run "$1" "$2"
}

# what a program said, and how it ended: tell_end NAME STATUS SAID
tell_end() {
  local status=$2 said=${3#"$1: "}
  [ "$status" -ne 141 ] || exit 141
  # a write that fails ends a program by the system's word for it, also where the reader has gone away
  if [ "$status" -eq 1 ] && [[ $said =~ ^'Error: Os { code: '[0-9]+', kind: '([A-Za-z]+)', message: "'(.*)'" }'$ ]]; then
    [ "${BASH_REMATCH[1]}" != BrokenPipe ] || exit 141
    fail 1 "not written: ${BASH_REMATCH[2]}"
  fi
  if [ "$status" -ne 0 ]; then
    [ -z "$said" ] || printf '%s\n' "$said" >&2
    if [ "$status" -gt 128 ]; then
      fail 1 "$called: the program $1 was ended by a signal ($(kill -l $((status - 128)))), and what it wrote is not whole"
    fi
    fail 1 "$called: the program $1 could not be run, or not to its end (exit status $status)"
  fi
  case $said in
  '') ;;
  refused*)
    echo "$tool: $called: $said" >&2
    tell_line "$said"
    ;;
  *) fail 1 "$called: $said" ;;
  esac
}

# of a text, the line of the field that was refused: a field is a line that has a word (§24.2)
tell_line() {
  [ -z "$text" ] || ! [[ $1 =~ \;\ field\ ([0-9]+)\  ]] ||
    LC_ALL=C awk -v field="${BASH_REMATCH[1]}" -v where="$tool: $called: that is line" '
      { sub(/#.*/, ""); gsub(/\r/, " ") }
      NF && ++fields == field { print where, NR; exit }' "$text" >&2
}

# ends what is running with this script, and then this script, by the same signal
stop() {
  [ -z "$player" ] || kill "$player" 2>/dev/null || true
  trap - "$1"
  kill "-$1" "$$"
}

watch_signals() {
  trap 'stop INT' INT
  trap 'stop TERM' TERM
  trap 'stop HUP' HUP
}

# sorts the words of the command: options, of which the tool's own go to its function `option`, and `names`, which are the others
take_words() {
  names=()
  while [ $# -gt 0 ]; do
    case $1 in
    --help | --version)
      write "${1#--}"
      exit
      ;;
    --)
      shift
      names+=("$@")
      break
      ;;
    -) names+=(-) ;;
    -*) option "$1" || fail_usage "$1: there is no such option" ;;
    *) names+=("$1") ;;
    esac
    shift
  done
}

# begins with the words of the command; what is copied goes with this script
begin() {
  player=
  text=
  # what is loaded in front of other programs is not for the proved ones, which have a C library of their own
  unset LD_PRELOAD
  check_streams
  room=$(mktemp -d 2>/dev/null) || fail 1 "no room for a copy of the input: a folder in ${TMPDIR:-/tmp} can't be made"
  trap 'rm -rf "$room"' EXIT
  watch_signals
  take_words "$@"
}

# the input as a sheet, in $room/sheet; sets `text`, the file where it was a text
make_sheet() {
  if is_text "$room/input"; then
    play scribe "$room/input" >"$room/sheet"
    text=$room/input
  else
    mv "$room/input" "$room/sheet"
  fi
}
