# Sourced by each script of this folder. It goes into the folder of that script, stops at the first failure, and leaves the top of
# the repository in `top` and a folder for what is made in `place`.
set -euo pipefail
cd "$(dirname "${BASH_SOURCE[1]}")"
top=$(cd ../.. && pwd)
place=$(mktemp -d)
trap 'rm -rf "$place"' EXIT

# Leaves the proved executable in `lucy`.
want_lucy() {
  lucy=$top/bin/lucy
  [ -x "$lucy" ] || { echo 'run ./build first' >&2; exit 1; }
}

# Proves and builds the program of a crate, and leaves it in the variable of that name.
want_program() {
  "$top/build" "$1" >&2
  printf -v "$1" %s "$top/bin/$1"
}

# Compiles a C file of this folder, with options, and leaves it under its name in $place.
want_c() {
  "${CC:-cc}" "${@:2}" -o "$place/$1" "$1.c"
}

repeated() { printf "%0.s$1" $(seq "$2"); }

# The least of so many runs of a command from its start to its end, in microseconds. It reads $place/input and prints into
# $place/printed; one that refuses is timed as well, and tells why in $place/refused.
least() {
  local best= began time
  for _ in $(seq "$1"); do
    began=${EPOCHREALTIME/[.,]/}
    "${@:2}" <"$place/input" >"$place/printed" 2>"$place/refused" || true
    time=$((${EPOCHREALTIME/[.,]/} - began))
    [ -n "$best" ] && [ "$best" -le "$time" ] || best=$time
  done
  echo "$best"
}

# How a command ends: its status, the least seconds of so many runs, its greatest memory then, and the head of what it tells. Its input
# and what it prints stand as above.
told() {
  local status refused
  : >"$place/told"
  for _ in $(seq "$1"); do
    status=0
    /usr/bin/time -q -a -f '%e %M' -o "$place/told" "${@:2}" <"$place/input" >"$place/printed" 2>"$place/refused" || status=$?
  done
  refused=$(head -c 80 "$place/refused")
  echo "status $status, $(sort -n "$place/told" | awk 'NR == 1 { print $1 " s, " $2 " KiB" }')${refused:+, $refused}"
}

# So of a text that texts.py makes, and of half and a quarter of it; the words of the command that end in the text stand last.
parts() {
  local part
  for part in 1 0.5 0.25; do
    python3 texts.py "$2" "$part" >"$place/text"
    echo "$2, $part of it, $(wc -c <"$place/text") bytes: $(told "$1" "$lucy" "${@:3}" "$place/text")"
  done
}

# Runs a program that prints a sum and a time, keeps the least time in the variable named first, and puts the sum into `sums`.
keep_least() {
  local sum time rest
  read -r sum time rest < <("${@:2}")
  sums+="$sum"$'\n'
  [ -n "${!1:-}" ] && [ "${!1}" -le "$time" ] || printf -v "$1" %s "$time"
}

# Stops where not all of these lines are the same.
same() {
  [ "$(sort -u <<<"${2%$'\n'}" | wc -l)" -eq 1 ] || { printf '%s differ:\n%s' "$1" "$2" >&2; exit 1; }
}

ratio() { awk "BEGIN { printf \"%.2f\", $1 / $2 }"; }

: >"$place/input"
