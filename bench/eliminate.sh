#!/usr/bin/env bash
# How long elimination takes: random linear inequalities, a moving disc, quadratics with parameters, and alternations that are
# nested, over the built program with one worker. Prints a table: the shortest time of a number of runs, the most distinct nodes of
# a block, and the most memory. The nodes are found by trying limits: the least one that is not refused.
set -eu
cd -- "$(dirname -- "${BASH_SOURCE[0]}")/.."
runs=${RUNS:-3}
seed=${SEED:-1}
work=$(mktemp -d)
trap 'rm -rf "$work"' EXIT

# The first run builds the program; the times are of the program itself.
echo true | ./qe >"$work/first"
grep -qx true "$work/first"

. bench/families.sh

# The exit status with a limit of nodes.
status_with() {
  local status=0
  crates/qe/out/qe --workers 1 --nodes "$1" <"$work/input" >"$work/out" || status=$?
  echo "$status"
}

# The least limit of nodes that is not refused.
nodes() {
  local low=0 high=1 middle
  while [ "$(status_with "$high")" -eq 9 ]; do
    low=$high
    high=$((high * 2))
    [ "$high" -le 1000000 ] || high=1000000
    [ "$low" -lt 1000000 ] || { echo 'over 1000000'; return; }
  done
  while [ $((high - low)) -gt 1 ]; do
    middle=$(((low + high) / 2))
    if [ "$(status_with "$middle")" -eq 9 ]; then low=$middle; else high=$middle; fi
  done
  echo "$high"
}

# The shortest time of the runs in milliseconds, the exit status, the bytes written and the most memory in KiB.
measure() {
  local best= status taken before after
  for _ in $(seq "$runs"); do
    status=0
    before=$(date +%s%N)
    /usr/bin/time -f %M -o "$work/memory" crates/qe/out/qe --workers 1 --nodes 1000000 <"$work/input" >"$work/out" || status=$?
    after=$(date +%s%N)
    taken=$(((after - before) / 1000))
    if [ -z "$best" ] || [ "$taken" -lt "$best" ]; then best=$taken; fi
  done
  echo "$(awk "BEGIN { printf \"%.1f\", $best / 1000 }") $status $(wc -c <"$work/out") $(tail -n 1 "$work/memory")"
}

row() {
  local name=$1 size=$2 ms status bytes memory
  read -r ms status bytes memory <<<"$(measure)"
  printf '| %-12s | %-7s | %9s | %6s | %8s | %12s | %9s |\n' "$name" "$size" "$ms" "$status" "$(nodes)" "$bytes" "$memory"
}

printf 'processors %s, seed %s\n\n' "$(nproc)" "$seed"
printf '| %-12s | %-7s | %9s | %6s | %8s | %12s | %9s |\n' family size ms status nodes 'bytes written' 'KiB'
printf '|--------------|---------|-----------|--------|----------|---------------|-----------|\n'
each_family "$work/input" row
