#!/bin/sh
# Times how the built program checks whole lines of three fields, beside a plain read of the same file and, if one is
# installed, a stock tool that reads such lines: bench/check_lines.sh [LINES]
set -eu
top=$(cd "$(dirname "$0")/.." && pwd)
lines=${1:-1000000}
file=$(mktemp)
trap 'rm -f "$file"' EXIT
"$top/bench/meter_lines.py" "$lines" > "$file"
"$top/rr" < /dev/null

# Lines per second of a command that reads the file on standard input: the best of three runs.
rate() {
    best=
    for _ in 1 2 3; do
        before=$(date +%s%N)
        "$@" < "$file" > /dev/null
        after=$(date +%s%N)
        took=$((after - before))
        if [ -z "$best" ] || [ "$took" -lt "$best" ]; then best=$took; fi
    done
    echo "$((lines * 1000000000 / best)) lines a second in $((best / 1000000)) ms"
}

date -u +%Y-%m-%d
lscpu | sed -n 's/^Model name: */machine: /p'
echo "$lines lines, $(wc -c < "$file") bytes"
echo "rr check-lines: $(rate "$top/rr" check-lines)"
echo "cat: $(rate cat)"
if command -v telegraf > /dev/null; then
    config=$(mktemp)
    trap 'rm -f "$file" "$config"' EXIT
    printf '[[inputs.file]]\nfiles = ["%s"]\ndata_format = "influx"\n[[outputs.discard]]\n' "$file" > "$config"
    echo "telegraf: $(rate telegraf --config "$config" --once --quiet)"
else
    echo "a stock tool that reads lines: none is installed"
fi
