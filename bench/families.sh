# The families of formulas that the scripts here measure. `seed` is set by who reads this file.

# So many linear inequalities in so many variables and a parameter, with coefficients from -9 to 9.
linear() {
  awk -v rows="$1" -v variables="$2" -v state="$seed" '
    function draw() { state = (state * 16807) % 2147483647; return state % 19 - 9 }
    BEGIN {
      printf "ex"
      for (j = 1; j <= variables; j++) printf " x%d", j
      for (i = 1; i <= rows; i++) {
        printf "%s", i == 1 ? ". " : " and "
        for (j = 1; j <= variables; j++) printf "%d*x%d + ", draw(), j
        printf "%d*a + %d <= 0", draw(), draw()
      }
    }'
}

disc() { printf 'ex t. 0 <= t and t <= 1 and (u + v*t)^2 + w^2 <= r^2'; }

# So many quadratics that are to be at most zero at one place.
quadratics() {
  awk -v parts="$1" 'BEGIN {
    printf "ex x. "
    for (i = 1; i <= parts; i++) printf "%sx^2 + b%d*x + c%d <= 0", i == 1 ? "" : " and ", i, i
  }'
}

# So many pairs of quantifiers: whatever x1, some y1, and so on.
alternations() {
  awk -v pairs="$1" 'BEGIN {
    for (i = 1; i <= pairs; i++) printf "all x%d. ex y%d. ", i, i
    for (i = 1; i <= pairs; i++) printf "%s[x%d < a or y%d^2 = x%d - a]", i == 1 ? "" : " and ", i, i, i
  }'
}

# Writes the input of each family and size to the file $1, and calls the rest of the words with the family and the size.
each_family() {
  local input=$1 size rows variables parts pairs
  shift
  for size in '8 1' '16 1' '32 1' '8 2' '16 2' '32 2' '8 3' '12 3' '16 3' '8 4' '10 4'; do
    read -r rows variables <<<"$size"
    linear "$rows" "$variables" >"$input"
    "$@" linear "$rows by $variables"
  done
  disc >"$input"
  "$@" disc 1
  for parts in 2 3 4; do
    quadratics "$parts" >"$input"
    "$@" quadratics "$parts"
  done
  for pairs in 1 2 3 4; do
    alternations "$pairs" >"$input"
    "$@" alternations "$pairs"
  done
}
