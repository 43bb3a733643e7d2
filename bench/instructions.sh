#!/usr/bin/env bash
# How many instructions elimination takes, by callgrind, with one worker: the families of bench/eliminate.sh, and generated inputs with
# and without a True leaf. The words are programs, the built one where there are none; each gets a column of millions of instructions
# and one of the most distinct nodes of a block (the least limit that is not refused).
set -eu
cd -- "$(dirname -- "${BASH_SOURCE[0]}")/.."
seed=${SEED:-1}
numbers=${NUMBERS:-1 2 3 5 8 19}
work=$(mktemp -d)
trap 'rm -rf "$work"' EXIT
. bench/families.sh

[ "$#" -gt 0 ] || set -- crates/qe/out/qe
programs=("$@")

status_with() {
  local status=0
  "$1" --workers 1 --nodes "$2" <"$work/input" >"$work/out" || status=$?
  echo "$status"
}

# The least limit of nodes that is not refused.
nodes() {
  local low=0 high=1 middle
  while [ "$(status_with "$1" "$high")" -eq 9 ]; do
    low=$high
    high=$((high * 2))
  done
  while [ $((high - low)) -gt 1 ]; do
    middle=$(((low + high) / 2))
    if [ "$(status_with "$1" "$middle")" -eq 9 ]; then low=$middle; else high=$middle; fi
  done
  echo "$high"
}

# Millions of instructions.
instructions() {
  valgrind --tool=callgrind --callgrind-out-file=/dev/null "$1" --workers 1 --nodes 1000000 <"$work/input" 2>"$work/told" >"$work/out" || true
  awk '/Collected/ { printf "%.1f", $4 / 1000000 }' "$work/told"
}

row() {
  printf '| %-12s | %-7s |' "$1" "$2"
  for program in "${programs[@]}"; do
    printf ' %10s | %6s |' "$(instructions "$program")" "$(nodes "$program")"
  done
  printf '\n'
}

printf '| %-12s | %-7s |' family size
for program in "${programs[@]}"; do printf ' %10s | %6s |' 'million' nodes; done
printf '\n|--------------|---------|'
for program in "${programs[@]}"; do printf -- '-----------:|-------:|'; done
printf '\n'
each_family "$work/input" row
for number in $numbers; do
  "${programs[-1]}" make --number "$number" >"$work/input"
  row generated "$number"
done
