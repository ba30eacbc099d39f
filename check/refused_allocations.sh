#!/usr/bin/env bash
# Runs the program with each of its allocations refused in turn, one in each run, until a run has none left to refuse.
# Every run has to end with status 0 and the whole output, or with status 5 and whole turns of it, or nothing.
# It wants a C compiler (CC, or cc): refuse_allocation.c stands between the built program and the C library.
# The gate doesn't run this.
set -eu
here=$(cd "$(dirname "$0")" && pwd)
top=$(dirname "$here")
room=$(mktemp -d)
trap 'rm -rf "$room"' EXIT

"$top/session_tool.sh" --version >/dev/null
program=$top/crates/session_tool/out/session_tool
"${CC:-cc}" -shared -fPIC -O1 -o "$room/refuse.so" "$here/refuse_allocation.c" -ldl

# Whether what was written is nothing, the whole output, or its front up to where a turn begins.
is_whole_turns() {
  local size rest
  size=$(stat -c %s "$room/output")
  head -c "$size" "$room/whole" | cmp -s - "$room/output" || return 1
  rest=$(tail -c +$((size + 1)) "$room/whole" | head -c 5)
  [ "$size" -eq 0 ] || [ -z "$rest" ] || [ "$rest" = "turn " ]
}

was_refused() {
  [ "$(head -n 1 "$room/told")" = refused ]
}

# The runs of these words: sweep NAME INPUT WORD..
sweep() {
  local name=$1 input=$2 number=0 status gave_up=0 with_turns=0 well=0 wrong=0
  shift 2
  "$program" "$@" <"$input" >"$room/whole"
  while :; do
    number=$((number + 1))
    status=0
    REFUSED_ALLOCATION=$number LD_PRELOAD=$room/refuse.so "$program" "$@" <"$input" >"$room/output" 2>"$room/told" || status=$?
    if [ "$status" -eq 5 ] && was_refused && is_whole_turns; then
      gave_up=$((gave_up + 1))
      [ ! -s "$room/output" ] || with_turns=$((with_turns + 1))
    elif [ "$status" -eq 0 ] && cmp -s "$room/whole" "$room/output"; then
      was_refused || break
      well=$((well + 1))
    else
      wrong=$((wrong + 1))
      echo "$name: allocation $number refused: status $status, $(stat -c %s "$room/output") bytes written"
      was_refused || break
    fi
  done
  echo "$name: $((number - 1)) allocations: $gave_up runs ended with 5, $with_turns of them with finished turns, $well with 0, $wrong otherwise"
  [ "$wrong" -eq 0 ]
}

failed=0
sweep version /dev/null --version || failed=1
for script in two_callers_one_gone broken_reply transactions; do
  sweep "$script" "$here/$script.script" replay || failed=1
done
exit "$failed"
