#!/usr/bin/env bash
# How the time to read an input grows with its length: three shapes at three lengths, over the built program.
# Prints a table. The time of an empty input is taken off each; of a number of runs the shortest counts.
set -eu
cd -- "$(dirname -- "${BASH_SOURCE[0]}")/.."
runs=${RUNS:-7}
work=$(mktemp -d)
trap 'rm -rf "$work"' EXIT

# The first run builds the program; the times are of the program itself.
echo true | ./qe >"$work/first"
grep -qx true "$work/first"

# A repeated piece, joined by `and`, of this many bytes at most.
conjunction() {
  awk -v size="$1" -v piece="$2" 'BEGIN {
    joint = " and "; text = piece; used = length(piece); printf "%s", piece
    while (used + length(joint) + length(piece) <= size) { printf "%s%s", joint, piece; used += length(joint) + length(piece) }
  }'
}

flat() { conjunction "$1" "velocity <= 1000"; }

# Atoms under 200 brackets each.
deep() {
  local open close
  open=$(printf '[%.0s' $(seq 200))
  close=$(printf ']%.0s' $(seq 200))
  conjunction "$1" "${open}x < 1${close}"
}

# One polynomial with many summands.
long() {
  awk -v size="$1" 'BEGIN {
    printf "%s", "0"; used = 9
    while (used + 12 <= size) { printf "%s", " + 12*x*y^2"; used += 11 }
    printf "%s", " < 1"
  }'
}

# The shortest time of the runs in microseconds, and the exit status.
measure() {
  local best=0 status=0 before after
  for _ in $(seq "$runs"); do
    before=$(date +%s%N)
    crates/qe/out/qe <"$1" >"$work/out" && status=0 || status=$?
    after=$(date +%s%N)
    local taken=$(((after - before) / 1000))
    if [ "$best" -eq 0 ] || [ "$taken" -lt "$best" ]; then best=$taken; fi
  done
  echo "$best $status"
}

: >"$work/empty"
read -r start _ <<<"$(measure "$work/empty")"
printf 'processors %s, start-up %s ms taken off\n\n' "$(nproc)" "$(awk "BEGIN { printf \"%.1f\", $start / 1000 }")"
printf '| %-6s | %9s | %6s | %8s | %12s |\n' shape bytes status ms 'ns per byte'
printf '|--------|-----------|--------|----------|--------------|\n'
for shape in flat deep long; do
  least=
  for size in 65536 262144 1048576; do
    "$shape" "$size" >"$work/input"
    bytes=$(wc -c <"$work/input")
    read -r taken status <<<"$(measure "$work/input")"
    read -r ms each <<<"$(awk "BEGIN { t = $taken - $start; printf \"%.1f %.1f\", t / 1000, 1000 * t / $bytes }")"
    printf '| %-6s | %9s | %6s | %8s | %12s |\n' "$shape" "$bytes" "$status" "$ms" "$each"
    [ -n "$least" ] || least=$each
  done
  printf '| %-6s | %38s | %9s |\n' "$shape" 'per byte, the longest to the shortest' "$(awk "BEGIN { printf \"%.2f\", $each / $least }")"
done
