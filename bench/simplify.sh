#!/usr/bin/env bash
# How the time to simplify grows with the number of atoms: a disjunction of atoms on different polynomials, in an order that has to
# be sorted, over the built program. Prints a table. The time of an empty input is taken off each; the shortest of the runs counts.
set -eu
cd -- "$(dirname -- "${BASH_SOURCE[0]}")/.."
runs=${RUNS:-5}
work=$(mktemp -d)
trap 'rm -rf "$work"' EXIT

# The first run builds the program; the times are of the program itself.
echo true | ./qe >"$work/first"
grep -qx true "$work/first"

# So many atoms `x < K`, each K once; 40503 has no divisor with the counts below, which are powers of two.
atoms() {
  awk -v count="$1" 'BEGIN { for (i = 0; i < count; i++) printf "%sx < %d", i == 0 ? "" : " or ", (i * 40503) % count }'
}

# The shortest time of the runs in microseconds.
measure() {
  local best= before after taken
  for _ in $(seq "$runs"); do
    before=$(date +%s%N)
    crates/qe/out/qe <"$1" >"$work/out" || :
    after=$(date +%s%N)
    taken=$(((after - before) / 1000))
    if [ -z "$best" ] || [ "$taken" -lt "$best" ]; then best=$taken; fi
  done
  echo "$best"
}

: >"$work/empty"
start=$(measure "$work/empty")
printf 'processors %s, start-up %s ms taken off\n\n' "$(nproc)" "$(awk "BEGIN { printf \"%.1f\", $start / 1000 }")"
printf '| %-6s | %9s | %12s |\n' atoms ms 'us per atom'
printf '|--------|-----------|--------------|\n'
for count in 4096 16384 65536; do
  atoms "$count" >"$work/input"
  taken=$(measure "$work/input")
  awk "BEGIN { t = $taken - $start; printf \"| %-6d | %9.1f | %12.2f |\n\", $count, t / 1000, t / $count }"
done
