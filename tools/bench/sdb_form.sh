#!/bin/sh
# Time of `sdb_form::read` per byte, for four kinds of form from 16 KiB to 1 MiB.
# Each line shows a kind, a size, the microseconds that 4 MiB of such forms take, and that time in
# hundredths of the time at 16 KiB.
set -e
top=$(cd "$(dirname "$0")/../.." && pwd)
work=$(mktemp -d)
trap 'rm -rf "$work"' EXIT
cp -r "$top/crates" "$top/crates.txt" "$work"
cd "$work"
git init -q .
mkdir -p crates/form_bench/src
cp "$top/tools/bench/sdb_form.txt" crates/form_bench/src/main.rt
echo 'form_bench: sdb_form' >> crates.txt
cd crates/form_bench
rt run
