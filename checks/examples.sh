#!/usr/bin/env bash
# Runs each example of the documents, and each row of checks/rows.md and checks/texts.md, over the built program. An example is an
# indented line `$ echo 'INPUT' | ./qe WORDS`, or another command with ./qe, then the indented lines that are written, and then,
# where the exit status is not 0, `[exit status N]`. Prints a line for each example that fails, and 'N passed, M failed' last.
set -u
cd -- "$(dirname -- "${BASH_SOURCE[0]}")/.." || exit 1
passed=0
failed=0

# The first run builds the program.
if [ "$(echo true | ./qe)" != true ]; then
  echo 'failed: the program could not be built'
  echo '0 passed, 1 failed'
  exit 1
fi

# What the command writes, and its exit status where it is not 0.
shown() {
  local status=0
  bash -c "$1" || status=$?
  [ "$status" -eq 0 ] || echo "[exit status $status]"
}

# Compares what a command writes with what it is to write.
expect() {
  local found
  found=$(shown "$2")
  if [ "$found" = "$3" ]; then
    passed=$((passed + 1))
  else
    failed=$((failed + 1))
    printf 'failed: %s: %s\nwritten:  %s\nexpected: %s\n' "$1" "$2" "$found" "$3"
  fi
}

# A formula that is written can be handed to the program again, and is then written as it was. Other commands write counts.
try() {
  expect "$@"
  case "$2: $3" in
    *'[exit status '*) ;;
    "echo '"*) expect "$1" "echo '$3' | ./qe" "$3" ;;
  esac
}

for file in README.md docs/LANGUAGE.md docs/METHOD.md checks/rows.md checks/texts.md; do
  command=
  expected=
  while IFS= read -r text; do
    case $text in
      "    \$ "*)
        [ -z "$command" ] || try "$file" "$command" "$expected"
        command=${text#"    \$ "}
        expected=
        ;;
      "    "*) expected=${expected:+$expected$'\n'}${text#"    "} ;;
      *)
        [ -z "$command" ] || try "$file" "$command" "$expected"
        command=
        ;;
    esac
  done < <(cat "$file"; echo)
done

echo "$passed passed, $failed failed"
[ "$failed" -eq 0 ]
