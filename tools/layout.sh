#!/bin/sh
# Formats the files of each crate with `rt fmt`, which says what it changed. The gate refuses a crate with a file in any
# other layout.
set -eu

root=$(CDPATH='' cd -- "$(dirname -- "$0")/.." && pwd -P)

for crate in "$root"/crates/*/; do
    (cd "$crate" && rt fmt)
done
