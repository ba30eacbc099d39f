#!/usr/bin/env bash
# Builds the proved program where it is missing or older than the crates that it stands on, and runs it with the given
# arguments. What it proves, and how far it is, it says on standard error.
#
#   session_tool.sh WORD ..                 the proved program
#   session_tool.sh --first-look WORD ..    the same program within a minute or two, compiled without any proof
set -eu
top=$(cd "$(dirname "$0")" && pwd)
name=session_tool
folder=$top/crates/$name
out=$folder/out
program=$out/$name
# What a build from nothing writes under the folder for temporary files, in megabytes.
disk=9000
scratch=${TMPDIR:-/tmp}

say() {
  echo "session_tool.sh: $*" >&2
}

stop() {
  say "$*"
  exit 70
}

# The lines of crates.txt for a crate and all that it stands on, the lowest first.
lines_below() {
  awk -v top="$1" '
    function visit(crate, count, below, i) {
      if (crate in seen || !(crate in line)) return
      seen[crate] = 1
      count = split(needs[crate], below, " ")
      for (i = 1; i <= count; i++) visit(below[i])
      print line[crate]
    }
    { sub(/#.*/, "") }
    /:/ { split($0, half, ":"); split(half[1], left, " "); line[left[1]] = $0; needs[left[1]] = half[2] }
    END { visit(top) }
  ' "$top/crates.txt"
}

lines=$(lines_below "$name")
mapfile -t crates < <(sed 's/[ :].*//' <<<"$lines")

# Whether the program is missing, or was built of other crates or before a change of one. One that the gate built has no
# note of its crates beside it.
is_old() {
  local crate folders=()
  [ -x "$program" ] || return 0
  if [ -e "$out/$name.crates" ]; then
    [ "$(cat "$out/$name.crates")" = "$lines" ] || return 0
  elif [ "$top/crates.txt" -nt "$program" ]; then
    return 0
  fi
  for crate in "${crates[@]}"; do
    folders+=("$top/crates/$crate/src" "$top/crates/$crate/specs" "$top/crates/$crate/proofs")
  done
  [ -n "$(find "${folders[@]}" -newer "$program" -type f -print -quit 2>/dev/null)" ]
}

# Refuses what can't end well.
look_first() {
  local free
  command -v rt >/dev/null || stop "rt, the command of the Rattle kit, is not on the path"
  free=$(df -Pm "$scratch" | awk 'NR == 2 { print $4 }')
  [ "$free" -ge "$disk" ] || stop "a build takes ${disk} MB of disk at $scratch, and $free are free"
}

# A repository of the program and the crates below it alone. The gate of such a repository proves these crates and no others.
copy_of_crates() {
  local copy=$1 crate
  mkdir "$copy/.git" "$copy/crates"
  cp "$top/HANDLES" "$copy"
  printf '%s\n' "$lines" >"$copy/crates.txt"
  for crate in "${crates[@]}"; do
    (cd "$top/crates" && tar -c --exclude="$crate/out" --exclude="$crate/must-fail" "$crate") | tar -x -C "$copy/crates"
  done
}

# Tells of each crate that the gate has proved how many of them stand.
count_proved() {
  local line number=0
  while IFS= read -r line; do
    if [[ $line =~ ^rt:\ ([a-z_]+)\ (proved|is\ kept) ]]; then
      number=$((number + 1))
      say "$number of ${#crates[@]} proved: ${BASH_REMATCH[1]} ($SECONDS s)"
    fi
  done
}

# Proves the crates and builds the program, as many crates side by side as processors and memory allow. The gate keeps what it
# has proved, so that a build that was interrupted goes on where it was.
build() {
  local log=$out/build.log copy
  mkdir -p "$out"
  copy=$(mktemp -d "$scratch/session_tool.XXXXXX")
  trap 'rm -rf "$copy"' EXIT
  copy_of_crates "$copy"
  say "proving ${#crates[@]} crates; what is proved already takes seconds"
  if ! (cd "$copy" && rt ci) </dev/null 2>&1 | tee "$log" | count_proved; then
    cat "$log" >&2
    stop "the program was not built, since a crate is not proved: $log"
  fi
  cp "$copy/crates/$name/out/$name" "$program.new"
  mv "$program.new" "$program"
  rm -rf "$copy"
  printf '%s\n' "$lines" >"$out/$name.crates"
  say "proved and built in $SECONDS s"
}

# Runs the program as it comes out of the compiler, without any proof.
first_look() {
  local status=0 log
  command -v rt >/dev/null || stop "rt, the command of the Rattle kit, is not on the path"
  log=$(mktemp)
  say "compiling without any proof"
  (cd "$folder" && rt try -- "$@") 2>"$log" || status=$?
  [ "$status" -eq 0 ] || cat "$log" >&2
  rm -f "$log"
  say "a first look, in $SECONDS s: NOTHING OF IT WAS PROVED"
  exit "$status"
}

set -o pipefail
if [ "${1:-}" = --first-look ]; then
  shift
  first_look "$@"
fi
if is_old; then
  look_first
  build
fi
exec "$program" "$@"
