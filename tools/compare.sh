#!/usr/bin/env bash
# Compares `beside` with the Rust crate on random calls: tools/compare.sh ORACLE FROM TO CALLS [OPTIONS]
# ORACLE is a folder with build/oracle and gen.py (docs/BESIDE.md). Each seed from FROM to TO makes a script of so many calls, with
# the options of tools/script.sh that are given. Prints the first line that differs of each script that does, and at last how many
# lines were compared, how many scripts differ, and a checksum of the crate's answers. Exits with 1 where a script differs.
set -euo pipefail
oracle=$(cd "${1:?the folder of the oracle}" && pwd)
from=${2:?the first seed} to=${3:?the last seed} calls=${4:?the calls of a script}
shift 4
tools=$(cd "$(dirname "$0")" && pwd)
cd "$tools/../crates/beside"
beside=out/beside
rt run < /dev/null > /dev/null 2>&1 # builds it
work=$(mktemp -d)
trap 'rm -rf "$work"' EXIT

lines=0 differ=0
for seed in $(seq "$from" "$to"); do
  "$tools/script.sh" "$oracle" "$seed" "$calls" "$@" > "$work/script"
  "$oracle/build/oracle" < "$work/script" > "$work/crate"
  "$beside" < "$work/script" > "$work/port" || echo "seed $seed: exit status $?"
  cat "$work/crate" >> "$work/all"
  lines=$((lines + $(wc -l < "$work/script")))
  if ! cmp -s "$work/crate" "$work/port"; then
    differ=$((differ + 1))
    line=$({ cmp "$work/crate" "$work/port" 2>&1 || true; } | sed -n 's/.*line \([0-9]*\).*/\1/p')
    echo "seed $seed, line $line: $(sed -n "${line}p" "$work/script")"
    echo "  the crate: $(sed -n "${line}p" "$work/crate" | cut -c1-200)"
    echo "  the port:  $(sed -n "${line}p" "$work/port" | cut -c1-200)"
  fi
done
echo "$lines lines of $((to - from + 1)) scripts, $differ differ; crate's answers $(sha256sum < "$work/all" | cut -c1-16)  $*"
[[ $differ -eq 0 ]]
