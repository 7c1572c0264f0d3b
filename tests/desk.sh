# shellcheck shell=bash
# Functions and stand-ins for tests/desk, which has the repository's root in `here`: how a command is tried, and a kit, an `rt` and programs that
# are scripts.
# shellcheck disable=SC2016,SC2034,SC2154,SC2317 # scripts in quotes; what tests/desk sets, reads or calls
room=$(mktemp -d)
chmod 755 "$room"
started=
trap '[ -z "$started" ] || kill "$started" 2>/dev/null || true; chmod -R u+w "$room"; rm -rf "$room"' EXIT
wrong=0

fail() {
  echo "tests/desk: $1" >&2
  wrong=1
}

skip() {
  echo "tests/desk: not tried here: $1" >&2
}

# whether the lines of file $1 are as many as those of $2 and match them, which are extended regular expressions for whole lines
matches() {
  local lines patterns i
  mapfile -t lines <"$1"
  mapfile -t patterns < <([ -z "$2" ] || printf '%s\n' "$2")
  [ "${#lines[@]}" -eq "${#patterns[@]}" ] || return 1
  for i in "${!lines[@]}"; do
    [[ ${lines[i]} =~ ^(${patterns[i]})$ ]] || return 1
  done
}

# holds $status, $room/out and $room/err to what is expected: judge WHAT STATUS OUT ERR, where OUT is a file and ERR lines for `matches`;
# nothing where they are empty, and anything where they are '*'
judge() {
  [ "$status" -eq "$2" ] || fail "$1: exit status $status, and not $2"
  [ "$3" = '*' ] || cmp -s "$room/out" "${3:-/dev/null}" || fail "$1: another output: $(head -n 3 "$room/out")"
  [ "$4" = '*' ] || matches "$room/err" "$4" || fail "$1: said something else: $(head -n 3 "$room/err")"
}

# runs a command and judges it: try WHAT STATUS OUT ERR COMMAND..
# what it finds on its PATH is what $use has
use=$PATH
try() {
  status=0
  PATH=$use "${@:5}" >"$room/out" 2>"$room/err" </dev/null || status=$?
  judge "${@:1:4}"
}

# ways to run a command
from() { "${@:2}" <"$1"; }
closed_input() { "$@" <&-; }
for_writing() { "$@" 0>"$room/scrap"; }
closed_output() { "$@" >&-; }
closed_error() { "$@" 2>&-; }
full() { "$@" >/dev/full; }
inside() { (cd "$1" && "${@:2}"); }

# runs a command for a reader that is gone before it writes
unread() {
  local codes
  (
    sleep 0.3
    exec "$@"
  ) | :
  codes=("${PIPESTATUS[@]}")
  return "${codes[0]}"
}

# as somebody who may write nothing here; files are to be without the right to be written where this is not root
other=()
find_other() {
  [ "$(id -u)" -eq 0 ] || return 0
  other=("$(command -v setpriv || echo setpriv)" --reuid=65534 --regid=65534 --clear-groups)
  "${other[@]}" true 2>/dev/null && return
  other=("$(command -v su || echo su)" -s /bin/sh nobody -c '"$0" "$@"')
  "${other[@]}" true 2>/dev/null
}

rostrum_usage='usage: ./rostrum \[--board \| --text \| --sheet\] \[FILE\]'
orders_usage='usage: ./orders \[DEPTH\] \[FILE\]'

# ---- a small copy of the repository, with stand-ins

# a kit whose loader runs a program as a script
kit=$room/kit
mkdir -p "$kit/toolchain/lib" "$room/rt" "$room/tools" "$room/machine" "$room/copies"
printf '#!/bin/sh\nexec sh "$3"\n' >"$kit/toolchain/lib/ld-linux-x86-64.so.2"

# the programs tell what they are given, behind the byte that a sheet begins with, and what a proved one may say
cat >"$room/stand-in" <<'END'
input=$(cat)
input=${input#"$(printf '\1')"}
case $input in
refused)
  echo R
  # the listing's program says nothing of it
  [ "${0##*/}" = rostrum ] || echo 'refused for a reason' >&2
  ;;
wrong) echo 'line 3, column 14: wrong' >&2 ;;
long) echo 'too long' >&2 ;;
unwritten) echo 'Error: Os { code: 28, kind: StorageFull, message: "No space left on device" }' >&2 && exit 1 ;;
unknown) echo 'no words for it' >&2 ;;
signal) echo 'half of it' && kill -SEGV $$ ;;
failure) echo 'half of it' && exit 3 ;;
*) printf '%s: %s\n' "${0##*/}" "$input" ;;
esac
END

# rt as FAKE_RT asks for it, in the program's crate: it makes the program and runs it, at once or when the file `go` is there, or refuses, or
# writes something else than is stored, or never comes to its end
cat >"$room/rt/rt" <<END
#!/bin/sh
case \$1 in doc) echo $kit/START-HERE.md && exit ;; esac
top=../..
name=\${PWD##*/}
echo "\$1 \$name" >>\$top/calls
mkdir -p out
case \$FAKE_RT in
endless)
  echo half >out/\$name && chmod +x out/\$name
  sleep 300 &
  echo "\$\$ \$!" >\$top/pids
  wait
  ;;
refuse) echo "rt: \$name NOT PROVED" >&2 && exit 1 ;;
slow)
  : >\$top/slow
  for try in 0 1 2 3 4 5 6 7 8 9; do
    [ -e \$top/go ] || sleep 1
  done
  ;;
esac
for crate in mark sheet \$name; do
  printf '%s\n' "rt: chose --jobs 1 for \$crate" "crate \$crate: modules loaded=0 checked=1" 'logic=proved functions=1' >&2
done
cp $room/stand-in out/\$name && chmod +x out/\$name
echo "rt: running out/\$name; to give it other input, run that file yourself" >&2
case \$FAKE_RT in flawed) echo something else ;; *) out/\$name ;; esac
END

# all that the scripts use but rt
for command in bash sh env readlink dirname basename sed grep awk find date touch head tail od cat cp mv rm cmp mktemp mkdir mkfifo flock sleep wc uname git chmod; do
  path=$(command -v "$command") || continue
  ln -s "$path" "$room/tools/$command"
done
# a machine that the kit has nothing for
printf '#!/bin/sh\necho riscv64\n' >"$room/machine/uname"
chmod +x "$kit/toolchain/lib/ld-linux-x86-64.so.2" "$room/rt/rt" "$room/machine/uname"
plain=$room/tools
with_rt=$room/rt:$plain

# a copy with the programs named, built
copy_to() {
  local to=$1 crate
  shift
  mkdir -p "$to/tests" "$to/include" "$to/target/bin"
  cp rostrum orders "$to"
  cp tests/program tests/kit.sh tests/tool.sh "$to/tests"
  cp include/desk.h "$to/include"
  printf '%s\n' 'mark:' 'sheet: mark' 'rostrum: sheet mark io' 'board: sheet mark io' 'scribe: sheet mark io' 'orders: sheet mark io' >"$to/crates.txt"
  for crate in mark sheet rostrum board scribe orders; do
    mkdir -p "$to/crates/$crate/src"
    : >"$to/crates/$crate/src/main.rt"
    echo stored >"$to/crates/$crate/stdin"
    echo "$crate: stored" >"$to/crates/$crate/stdout"
  done
  echo "$kit" >"$to/target/kit"
  for crate in "$@"; do
    cp "$room/stand-in" "$to/target/bin/$crate"
    chmod +x "$to/target/bin/$crate"
  done
}

# where the scripts make their copies, also those that somebody else runs
chmod 1777 "$room/copies"
export TMPDIR=$room/copies
# what the machine's own programs say is compared too
export LC_ALL=C

# ---- processes

# whether a process that this script has started runs; one that has ended and that nobody has asked for does not
runs() {
  local state
  { read -r _ _ state _ <"/proc/$1/stat"; } 2>/dev/null && [ "$state" != Z ]
}

# waits for a command to come true, ten seconds at most
await() {
  local tries=0
  until "$@"; do
    [ "$tries" -lt 100 ] || return 1
    sleep 0.1
    tries=$((tries + 1))
  done
}

is_gone() { ! runs "$1"; }

# starts a build that never ends, sends a signal to the script, or to all of its group as a terminal does, and judges what is left
interrupt() {
  local signal=$1 to=$2 what="a build that is interrupted by $1" pid
  rm -f pids
  set -m
  FAKE_RT=endless PATH=$use ./rostrum ordinary >"$room/out" 2>"$room/err" </dev/null &
  started=$!
  set +m
  await test -s pids || {
    fail "$what: it did not begin"
    return
  }
  kill "-$signal" -- "${to:+-}$started"
  # the shell's own word on it is not wanted
  await is_gone "$started" 2>/dev/null || {
    fail "$what: the script goes on"
    kill -KILL "$started"
  }
  status=0
  wait "$started" 2>/dev/null || status=$?
  started=
  judge "$what" "$((128 + $(kill -l "$signal")))" '' "$building"$'\nrostrum: the build was interrupted; .*'
  for pid in $(<pids); do
    await is_gone "$pid" || {
      fail "$what: something runs on"
      kill -KILL "$pid"
    }
  done
  [ -x crates/rostrum/out/rostrum ] || fail "$what: nothing is half made, which was to be tried"
  [ ! -e target/bin/rostrum ] || fail "$what: what is half made is taken"
}
