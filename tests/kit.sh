# shellcheck shell=bash
# Functions for the scripts that build with the Rattle kit and run what it builds. To be sourced where the script was called, since a path
# that it was given is meant from there, and with `here` the repository's root.
: "${here:?}"
# where POSIXLY_CORRECT is set, an `exec` that fails would end the script without a word
set +o posix

export DESK_ARCHIVE=${DESK_ARCHIVE:+$(readlink -f "$DESK_ARCHIVE")}
export MARK_ARCHIVE=${MARK_ARCHIVE:+$(readlink -f "$MARK_ARCHIVE")}
export WALKS_ARCHIVE=${WALKS_ARCHIVE:+$(readlink -f "$WALKS_ARCHIVE")}

# ---- where the kit is

# names what is missing, and ends the script; the first word is its name
missing() {
  echo "$1: $2" >&2
  exit 2
}

need_rt() {
  command -v rt >/dev/null || missing "$1" "'rt' is not on the PATH; it comes with the Rattle kit named in README.md"
}

# sets `kit`, the kit's folder: the one of `rt`, and where that is not on the PATH the one that was found here the last time
find_kit_folder() {
  local record=$here/target/kit known='' guide
  kit=
  [ ! -f "$record" ] || known=$(<"$record")
  if ! command -v rt >/dev/null && [ -n "$known" ]; then
    kit=$known
    return
  fi
  need_rt "$1"
  # its first page lies in it
  guide=$(rt doc </dev/null) || missing "$1" "'rt doc' does not tell where the kit is"
  kit=$(cd "$(dirname "$guide")" && pwd)
  [ "$kit" = "$known" ] || [ ! -d "$here/target" ] || { printf '%s\n' "$kit" >"$record"; } 2>/dev/null || true
}

# sets `tools`, the kit's compiler and linker; `libc`, its C library; and `emulator`, which runs x86-64 programs where this machine is another,
# and is empty where it is not. All of the kit is for x86-64. The word is the name of the script, for what it says.
find_kit() {
  local machine
  find_kit_folder "$1"
  machine=$(uname -m)
  tools=$kit/toolchain/bin
  libc=$kit/toolchain/lib
  emulator=
  if [ "$machine" != x86_64 ]; then
    emulator=$(command -v qemu-x86_64) || missing "$1" "this machine is $machine, and the emulator qemu-x86_64 is not on the PATH"
  fi
  [ -x "$libc/ld-linux-x86-64.so.2" ] || missing "$1" "the kit's loader is not there: $libc/ld-linux-x86-64.so.2"
}

# ---- what is old

# the crates of this repository that a crate is proved with: those that it depends on, and itself
crates_of() {
  local name
  for name in $(sed -n "s/^$1\( staticlib\)\{0,1\}://p" "$here/crates.txt") "$1"; do
    [ ! -d "$here/crates/$name" ] || printf '%s\n' "$name"
  done
}

# whether a file is missing, or older than the sources of a crate and of those that it depends on
is_old() {
  local file=$1 sources=("$here/crates.txt") name part
  [ -e "$file" ] || return 0
  for name in $(crates_of "$2"); do
    for part in "$here/crates/$name"/*; do
      # what rt keeps there is no source
      [ "${part##*/}" = out ] || sources+=("$part")
    done
  done
  [ -n "$(find "${sources[@]}" -newer "$file" -print -quit)" ]
}

# what a build wrote gets the time at which it began: a source that was changed meanwhile is newer than that
built_since() {
  touch -c -d "@$1" "$2"
}

# ---- building, one at a time in this repository

# takes the lock of this repository's builds, and waits for it where another build has it
take_lock() {
  command -v flock >/dev/null || missing "$1" "'flock' is not on the PATH; it comes with util-linux"
  { mkdir -p "$here/target" && exec {lock}>>"$here/target/lock"; } 2>/dev/null || {
    echo "$1: it has to be built first, and $here/target can't be written" >&2
    exit 1
  }
  local status waiting=0
  while :; do
    status=0
    flock -n "$lock" 2>/dev/null || status=$?
    # 1 is that another has it; any other failure is of a file system that knows no locks
    [ "$status" -eq 1 ] || break
    [ "$waiting" -eq 1 ] || echo "$1: another build is under way in $here; waiting for it" >&2
    waiting=1
    sleep 0.5
  done
}

free_lock() {
  exec {lock}>&-
}

# a time in words
minutes() {
  if [ "$1" -lt 60 ]; then
    echo "$1 s"
  else
    echo "$(($1 / 60)) min $(($1 % 60)) s"
  fi
}

# Tells how far the build is: on a terminal in one line that is written again and again, else in a line for each step. Uses the variables of
# `build`: rt checks one crate after another, and says which only when it comes to it.
tell_progress() {
  local line
  [ -n "$now" ] || return 0
  line="$name: $(wc -w <<<"$proved") of ${#crates[@]} crates are proved, now $now"
  if [ -t 2 ]; then
    printf '\r%s, %s\033[K' "$line" "$(minutes $((SECONDS - began)))" >&2
  elif [ "$line" != "$told" ]; then
    printf '%s\n' "$line" >&2
  fi
  told=$line
}

# Takes a line of what rt says. It names a crate when it begins to check it, and at the end of that tells what was looked at, and then that it
# is proved; of a crate that was proved before it says nothing, so what a crate depends on counts with it.
take_line() {
  if [[ $1 =~ ^rt:\ chose\ --jobs\ [0-9]+\ for\ ([A-Za-z0-9_]+)$ ]]; then
    now=${BASH_REMATCH[1]}
    # shellcheck disable=SC2046 # names of crates are words
    count_proved $(crates_of "$now" | grep -vxF "$now")
  elif [[ $1 =~ ^crate\ ([A-Za-z0-9_]+):\  ]]; then
    now=${BASH_REMATCH[1]}
  elif [[ $1 == logic=proved\ * ]]; then
    count_proved "$now"
    now=
  fi
}

count_proved() {
  local crate
  for crate in "$@"; do
    [[ $proved == *" $crate "* ]] || proved+="$crate "
  done
}

# reads what rt says, into `said`, to its end
follow_build() {
  local line part=''
  while :; do
    if IFS= read -r -t 1 -u "$pipe" line; then
      line=$part$line
      part=
      said+=$line$'\n'
      take_line "$line"
    elif [ $? -gt 128 ]; then
      part+=$line
      # in a shell of a shell: where the script itself is gone, nobody wants this
      kill -0 "$$" 2>/dev/null || stop_build TERM
    else
      break
    fi
    tell_progress
  done
  said+=$part$line
  [ ! -t 2 ] || printf '\r\033[K' >&2
}

# ends all that the build has started, and then this shell, by the same signal
stop_build() {
  local tries=0
  trap '' INT TERM HUP
  if [ -n "$builder" ]; then
    kill -TERM -- "-$builder" 2>/dev/null || true
    while [ "$tries" -lt 5 ] && kill -0 -- "-$builder" 2>/dev/null; do
      sleep 0.1
      tries=$((tries + 1))
    done
    kill -KILL -- "-$builder" 2>/dev/null || true
  fi
  [ ! -t 2 ] || echo >&2
  echo "$name: the build was interrupted; what is proved stays so, and the next start goes on from there" >&2 || true
  trap - "$1"
  kill "-$1" "$BASHPID"
}

# Has rt build a crate, in a process group of its own, so that all of it can be ended, and sets `said`. A program is run too, on its stored
# input, and what it writes is beside it.
run_rt() {
  local folder builder='' pipe input=/dev/null
  said=
  trap 'stop_build INT' INT
  trap 'stop_build TERM' TERM
  trap 'stop_build HUP' HUP
  folder=$(mktemp -d)
  mkfifo "$folder/pipe"
  mkdir -p "$(dirname "$file")"
  [ ! -f "$here/crates/$crate/stdin" ] || input=$here/crates/$crate/stdin
  set -m
  if is_program "$crate"; then
    (cd "$here/crates/$crate" && exec rt run) >"$file.wrote" 2>"$folder/pipe" <"$input" &
  else
    (cd "$here/crates/$crate" && exec rt lib) >"$folder/pipe" 2>&1 </dev/null &
  fi
  builder=$!
  set +m
  exec {pipe}<"$folder/pipe"
  rm -r "$folder"
  follow_build
  exec {pipe}<&-
  ended=0
  wait "$builder" 2>/dev/null || ended=$?
  trap - INT TERM HUP
}

# whether a crate is a program, and no library
is_program() {
  [ -f "$here/crates/$1/src/main.rt" ]
}

# What a run of rt comes to: takes what it made, `made`, to its place, and sets `ended` to 0 where it is proved. Of a program sets `flaw` to 1
# where its run ended otherwise than it should, or wrote something else than is stored: it is proved, and can be run to see why. It then stays
# older than its sources, so that this is said each time.
take_built() {
  if is_program "$crate"; then
    # after this line the status is the program's own
    grep -q "^rt: running out/$crate;" <<<"$said" || {
      [ "$ended" -ne 0 ] || ended=1
      return 0
    }
    if [ "$ended" -ne 0 ] || ! cmp -s "$file.wrote" "$here/crates/$crate/stdout"; then
      flaw=1
    fi
    ended=0
    cp "$made" "$file.new" || ended=$?
  elif [ "$ended" -eq 0 ]; then
    pack "$made" "$file.new" || ended=$?
  fi
  [ "$ended" -eq 0 ] || return 0
  mv "$file.new" "$file"
  if [ "$flaw" -eq 0 ]; then
    built_since "$start" "$file"
    echo "$name: built, in $(minutes $((SECONDS - began)))" >&2
  else
    built_since 0 "$file"
    echo "$name: what it writes of its stored input is not what is stored" >&2
  fi
}

# Makes an archive of rt's that asks for nothing, not even a C library: pack MADE ARCHIVE. rt's compiler clears a large local by `memset`; where
# it does, one of our own goes in, which nothing beside the archive sees.
pack() {
  local folder object=${1##*/lib} status=0
  folder=$(mktemp -d)
  object=$folder/${object%.a}.o
  rm -f "$2"
  compile "$here/tests/c/freestanding/memset.c" "$folder/memset.o" -fPIC -fno-builtin &&
    "$tools/llvm-ar" rcs "$folder/memset.a" "$folder/memset.o" &&
    "$tools/ld.lld" -r -o "$object" --whole-archive "$1" --no-whole-archive "$folder/memset.a" &&
    (exec -a llvm-objcopy "$tools/clang" --localize-symbol=memset "$object") &&
    "$tools/llvm-ar" rcs "$2" "$object" || status=$?
  rm -r "$folder"
  return "$status"
}

# Proves and builds a file where it is not there, or is older than its sources: build NAME FILE CRATE MADE, NAME being the script's for what
# it says, and MADE the file of the crate's out/ that it becomes. Where it is built, sets `said`, what rt said, `ended`, which is 0 where
# it is there, and `flaw`.
build() {
  local name=$1 file=$2 crate=$3 made=$here/crates/$3/out/$4 crates proved=' ' now='' told='' began start
  said=
  ended=0
  flaw=0
  is_old "$file" "$crate" || return 0
  need_rt "$name"
  take_lock "$name"
  # another build may have made it meanwhile
  if is_old "$file" "$crate"; then
    mapfile -t crates < <(crates_of "$crate")
    echo "$name: proving and building it first, ${#crates[@]} crates, which takes some $(((${#crates[@]} + 2) / 3)) to ${#crates[@]} minutes; only once" >&2
    began=$SECONDS
    start=$(date +%s.%N)
    run_rt
    take_built
    rm -f "$file.wrote"
  fi
  free_lock
}

# Sets `words`, the command that runs a proved program, which is built first where it is old, and `flaw` (`take_built`).
# shellcheck disable=SC2034 # both are for the script
find_program() {
  local name=$1 program=$here/target/bin/$1
  find_kit "$name"
  build "$name" "$program" "$name" "$name"
  [ "$ended" -eq 0 ] || {
    printf '%s' "$said" >&2
    exit 1
  }
  words=(${emulator:+"$emulator"} "$libc/ld-linux-x86-64.so.2" --library-path "$libc" "$program")
}

# prints where the archive of a crate is; it is proved and built first where it is not there, or is older than its sources. A crate that others
# are built on is no archive itself: that of floor is made of floor_c, which has its exports.
# DESK_ARCHIVE names one for floor that is taken as it is, WALKS_ARCHIVE one for walks, which has all orders, and MARK_ARCHIVE one for mark.
archive_of() {
  local crate=$1 archive=$here/target/staticlib/lib$1.a given=''
  case $crate in
  floor) given=$DESK_ARCHIVE ;;
  walks) given=$WALKS_ARCHIVE ;;
  mark) given=$MARK_ARCHIVE ;;
  esac
  if [ -n "$given" ]; then
    archive=$given
  else
    build "lib$crate.a" "$archive" "${crate}_c" "lib${crate}_c.a"
    [ "$ended" -eq 0 ] || {
      printf '%s' "$said" >&2
      return 1
    }
  fi
  printf '%s\n' "$archive"
}

# ---- C and C++

# whether a file is C++, by its name
is_cpp() {
  case $1 in
  *.cc | *.cpp | *.cxx) ;;
  *) return 1 ;;
  esac
}

# Compiles one file, C or C++, for x86-64, with stand-ins for the headers of the C library; the words after the object's name go to the
# compiler last, so that they decide. There is no C++ library in the kit, so C++ is compiled to ask for none of it.
compile() {
  local source=$1 object=$2 language=(-std=c11)
  shift 2
  if is_cpp "$source"; then
    # the lock of a static object that is made where it is first met would be the C++ library's
    language=(-x c++ -std=c++17 -fno-exceptions -fno-rtti -fno-threadsafe-statics)
  fi
  "$tools/clang" --target=x86_64-unknown-linux-gnu "${language[@]}" -Wall -Wextra -O2 -fPIE -nostdlibinc \
    -isystem "$here/tests/c/freestanding" -I"$here/include" "$@" -c "$source" -o "$object"
}

# links objects and archives with the kit's C library, which the program then finds by itself
link() {
  local program=$1
  shift
  "$tools/ld.lld" -pie --dynamic-linker "$libc/ld-linux-x86-64.so.2" -rpath "$libc" -o "$program" \
    "$libc/Scrt1.o" "$libc/crti.o" "$libc/crtbeginS.o" "$@" \
    "$libc/libc.so.6" "$libc/libc_nonshared.a" "$libc/libgcc.a" "$libc/crtendS.o" "$libc/crtn.o"
}
