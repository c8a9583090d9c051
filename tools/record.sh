#!/usr/bin/env bash
# Records what the gate replays: crates/beside/stdin, random calls from the seeds below with the examples behind them, and
# crates/beside/stdout, the Rust crate's answers. `tools/record.sh ORACLE`: a folder with build/oracle and gen.py, of which
# docs/BESIDE.md says what they are. It writes neither file where the crate answers an example otherwise than examples/answers,
# which was written by hand.
set -euo pipefail
oracle=$(cd "${1:?the folder of the oracle}" && pwd)
tools=$(cd "$(dirname "$0")" && pwd)
cd "$tools/../crates/beside"

# seed, calls and options (of tools/script.sh) of each part; the kinds of an index are short, nz16 and sheet, those of a generation
# season, season0 and unmarked
parts() {
  cat << 'END'
101 500 --inx short --gen season
102 500 --inx short --gen season0 --running
103 400 --inx short --gen unmarked
104 400 --inx nz16 --gen season --running
105 400 --inx nz16 --gen season0
106 400 --inx nz16 --gen unmarked --running
107 500 --inx sheet --gen season
108 500 --inx sheet --gen season0 --running
109 500 --inx sheet --gen unmarked
110 300 --inx sheet --gen season --running
111 300 --inx short --gen season --running
112 300 --inx short --gen season
201 200 --inx sheet --gen season --big
202 200 --inx sheet --gen unmarked --big --running
203 60 --inx short --gen season --big
301 150 --heap-only --low --inx short --gen season0 --running
302 150 --heap-only --low --inx sheet --gen unmarked
END
}

work=$(mktemp -d)
trap 'rm -rf "$work"' EXIT
parts | while read -r seed calls options; do
  # shellcheck disable=SC2086 # the options are words
  "$tools/script.sh" "$oracle" "$seed" "$calls" $options
done > "$work/stdin"
# Behind, since the answer to a bad line has its number.
cat examples/calls >> "$work/stdin"
"$oracle/build/oracle" < "$work/stdin" > "$work/stdout"
if ! diff examples/answers <(tail -n "$(wc -l < examples/calls)" "$work/stdout") >&2; then
  echo 'the crate answers examples otherwise than they were written by hand' >&2
  exit 1
fi
cp "$work/stdin" "$work/stdout" .
wc stdin stdout
