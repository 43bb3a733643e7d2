#!/usr/bin/env bash
# Hands words to the built program on its command line, with `true` as its input. What each list of words gives is proved and tested
# in qe_words; here it is seen that the program is handed these very words, as text or not, many or long ones, and answers at once.
# Prints a line for each row that fails, and 'N passed, M failed' last.
set -u
cd -- "$(dirname -- "${BASH_SOURCE[0]}")/.." || exit 1
usage='usage: qe [eliminate|answers|summary|make] [--workers W] [--nodes N] [--number K]'
passed=0
failed=0

# The first run builds the program.
if [ "$(echo true | ./qe)" != true ]; then
  echo 'failed: the program could not be built'
  echo '0 passed, 1 failed'
  exit 1
fi

# The words are answered by this status and this line.
expect() {
  local status=0 found
  found=$(echo true | timeout 5 ./qe "${@:3}") || status=$?
  if [ "$status $found" = "$1 $2" ]; then
    passed=$((passed + 1))
  else
    failed=$((failed + 1))
    printf 'failed: words %.200s\nwritten:  %s %s\nexpected: %s %s\n' "${*:3}" "$status" "$found" "$1" "$2"
  fi
}

eliminates() { expect 0 true "$@"; }
refuses() { expect 1 "$usage" "$@"; }

eliminates
eliminates --
eliminates eliminate
eliminates -- eliminate
eliminates --workers 3
eliminates --workers=16 --nodes 0000001 eliminate --number=0
refuses --workers
refuses --workers=
refuses --workers=3=4
refuses --workers -1
refuses --workers --nodes 3
refuses --nodes 5 --nodes=5
refuses --nodes 00000005
refuses --nodes ' 5'
refuses --work 3
refuses -w 3
refuses -h
refuses --help
refuses --version
refuses help
refuses -
refuses ''
refuses -- -- ''
refuses -- --nodes 5
refuses eliminate -- eliminate

# Text, and bytes that are none.
refuses é
refuses --workers é
refuses $'\xff'
refuses --workers 3 $'-\xc3'

# Many words, and the longest that Linux hands over.
refuses $(yes eliminate | head -n 200)
refuses $(yes -- --workers=3 | head -n 200)
refuses $(yes -- '--workers 3' | head -n 100)
long=$(head -c 131071 /dev/zero | tr '\0' 1)
refuses "$long"
refuses --nodes "$long"
refuses "${long:0:131000}=${long:0:10}"
refuses "--nodes=${long:0:131000}"
refuses "--${long:0:131000}"

echo "$passed passed, $failed failed"
[ "$failed" -eq 0 ]
