#!/bin/sh
# Times the built program on a script of whole lines of three fields: bench/writes.sh [LINES]
set -eu
top=$(cd "$(dirname "$0")/.." && pwd)
lines=${1:-300000}
script=$(mktemp)
trap 'rm -f "$script"' EXIT
"$top/bench/meter_lines.py" --script "$lines" > "$script"
"$top/rr" < /dev/null
before=$(date +%s%N)
"$top/rr" < "$script" > /dev/null
after=$(date +%s%N)
echo "$lines lines in $(( (after - before) / 1000000 )) ms: $(( lines * 1000000000 / (after - before) )) lines a second"
