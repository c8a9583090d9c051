#!/usr/bin/env bash
# Prints a random call script: tools/script.sh ORACLE SEED CALLS [--heap-only] [OPTIONS]
# ORACLE is a folder with gen.py, whose options are the last (docs/BESIDE.md). With `--heap-only` each arena is over a heap stack:
# what gen.py asks of a fixed or limited stack is asked of one on the heap, and requests of 4 to 7 at its making become 0 to 3. A
# limit of an arena of numbers becomes a request for capacity; that of a directory stays, a bad line.
set -euo pipefail
oracle=${1:?the folder of the oracle} seed=${2:?the seed} calls=${3:?the calls}
shift 3
edit=()
if [[ ${1:-} == --heap-only ]]; then
  shift
  edit=(-e 's/^(make(dir)? [^ ]+) (fixed|limited) /\1 heap /' -e '/ heap [4-7]$/y/4567/0123/' -e 's/^limit ([ABC]) /reserve \1 /')
fi
python3 "$oracle/gen.py" "$seed" "$calls" "$@" | sed -E -e '' "${edit[@]}"
