#!/usr/bin/env bash
# Builds a program, runs it on its sample, and prints what went in and what came out: `citation`, or the one that is named.
set -eu
program=${1:-citation}
cd "$(dirname "$0")/crates/$program"
said=$(mktemp)
log=$(mktemp)
trap 'rm -f "$said" "$log"' EXIT
rt run < stdin > "$said" 2> "$log" || { cat "$log" "$said" >&2; exit 1; }
if [[ $program == register ]]; then # an answer for each line
  paste <(cat stdin; echo) "$said" | while IFS=$'\t' read -r call answer; do
    printf '%-30s %s\n' "$call" "$answer"
  done
else
  printf 'What went in:\n%s\n\nWhat %s says of it:\n' "$(cat -n stdin)" "$program"
  cat "$said"
fi
