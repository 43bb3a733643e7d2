#!/usr/bin/env bash
# What the checker does not look at: the repository's own order. Prints a line for each failure, and 'N passed, M failed' last.
set -u
cd -- "$(dirname -- "${BASH_SOURCE[0]}")/.." || exit 1
passed=0
failed=0

# Passes where the rest of the words is a command that prints nothing.
expect_nothing() {
  local what=$1 found
  shift
  found=$("$@" 2>&1)
  if [ -z "$found" ]; then
    passed=$((passed + 1))
  else
    failed=$((failed + 1))
    printf 'failed: %s\n%s\n' "$what" "$found"
  fi
}

files() { git ls-files --cached --others --exclude-standard "$@"; }

links() { files | while IFS= read -r file; do [ -L "$file" ] && echo "$file"; done; }

# A .rt file stands in the src/ of a listed crate, and an .antt file in its specs/ or proofs/.
strays() {
  files | grep -E '\.(rt|antt)$' | while IFS= read -r file; do
    crate=$(expr "$file" : 'crates/\([^/]*\)/')
    case $file in
      crates/*/src/*.rt | crates/*/specs/*.antt | crates/*/proofs/*.antt) grep -Eq "^$crate( |:)" crates.txt || echo "$file" ;;
      *) echo "$file" ;;
    esac
  done
}

handles() { [ "$(cat HANDLES)" = 'Handles allowed: Threads, Wait.' ] || echo 'HANDLES has another text'; }

# README's two commands: the script that builds and runs the program, and the gate.
commands() {
  grep -qF "echo 'ex x. x^2 = 2' | ./qe" README.md || echo 'README does not show ./qe'
  grep -qF 'rt ci' README.md || echo 'README does not name rt ci'
  [ -x qe ] || echo './qe is not there to be run'
  bash -n qe
  command -v rt >/dev/null || echo 'rt is not there to be run'
}

# The repository stands alone: no text cites a paper, or one of its sections or demands, by number. A row of a table in
# docs/PERFORMANCE.md holds measurements.
citations() {
  git grep -nE '\b([Dd]ocument|[Pp]aper|[Ss]ection) 0?[0-9]\b|\b0[1-4]-[a-z]+\b|shared/[p]apers|\b[4]\.[0-9]{1,2}\b|\b[WDR][0-9]{1,2}\b|\b[T][1-5] \([a-h]\)' -- \
    '*.rt' '*.antt' '*.md' '*.edit' '*.sh' crates.txt qe .ci | grep -v '^docs/PERFORMANCE.md:[0-9]*:|'
}

roots() { for file in crates/*/src/lib.rt crates/*/src/main.rt; do [ ! -f "$file" ] || grep -qF '#![tactic(auto)]' "$file" || echo "$file"; done; }

expect_nothing 'no link' links
expect_nothing 'no stray source or proof file' strays
expect_nothing 'HANDLES as it was given' handles
expect_nothing "README's two commands exist" commands
expect_nothing 'no citation of a paper by number' citations
expect_nothing 'each root file asks for tactics' roots
expect_nothing 'the headline reaches no definition of the method' python3 checks/reaches.py --check

# What is seen of the built program: the examples of the documents, and the words. The last line of each counts its rows.
for check in examples words; do
  rows=$(bash "checks/$check.sh")
  counts=$(tail -n 1 <<<"$rows")
  head -n -1 <<<"$rows"
  passed=$((passed + ${counts%% passed*}))
  counts=${counts#*, }
  failed=$((failed + ${counts%% failed*}))
done

echo "$passed passed, $failed failed"
[ "$failed" -eq 0 ]
