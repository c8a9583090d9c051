#!/usr/bin/env bash
# Runs `beside` in valgrind on 100,000 random calls on arenas over heap stacks: tools/valgrind.sh ORACLE
# ORACLE is a folder with build/oracle and gen.py (docs/BESIDE.md). The calls are 20 scripts of 5,000, joined. Prints what valgrind
# says at last, how many lines there are, and whether each answer is the crate's. Exits with 9 where valgrind found a leak or wrong
# access, and with 1 where an answer differs.
set -euo pipefail
oracle=$(cd "${1:?the folder of the oracle}" && pwd)
tools=$(cd "$(dirname "$0")" && pwd)
cd "$tools/../crates/beside"
beside=out/beside
rt run < /dev/null > /dev/null 2>&1 # builds it
work=$(mktemp -d)
trap 'rm -rf "$work"' EXIT

indices=(short sheet) generations=(season season0 unmarked)
for seed in {1..20}; do
  "$tools/script.sh" "$oracle" "$seed" 5000 --heap-only --low --running \
    --inx "${indices[seed % 2]}" --gen "${generations[seed % 3]}"
done > "$work/script"
"$oracle/build/oracle" < "$work/script" > "$work/crate"
status=0
valgrind --leak-check=full --show-leak-kinds=all --errors-for-leak-kinds=all --error-exitcode=9 --log-file="$work/log" \
  "$beside" < "$work/script" > "$work/port" || status=$?
sed -E 's/^==[0-9]+== *//' "$work/log" | grep -E '^(in use|total heap|All heap|definitely|indirectly|possibly|still|ERROR)'
if ! cmp "$work/crate" "$work/port"; then
  echo 'the answers are not the answers of the crate' >&2
  exit 1
fi
echo "$(wc -l < "$work/script") lines, $(grep -cv '^kinds' "$work/script") of them calls; each answer is the crate's"
exit "$status"
