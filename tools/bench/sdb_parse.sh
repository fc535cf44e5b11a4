#!/bin/sh
# Times the reading of Select expressions as trees, as a ratio in one run. No program of the repository is
# changed: the crates are copied to a temporary folder, which gets a program of its own.
set -eu
top=$(cd "$(dirname "$0")/../.." && pwd)
folder=$(mktemp -d)
trap 'rm -rf "$folder"' EXIT
mkdir -p "$folder/crates/bench/src"
for crate in sdb_base sdb_tables sdb_lex sdb_parse; do
    cp -r "$top/crates/$crate" "$folder/crates/"
    grep "^$crate:" "$top/crates.txt" >> "$folder/crates.txt"
done
echo 'bench: sdb_parse sdb_base anyhow' >> "$folder/crates.txt"
cp "$top/tools/bench/sdb_parse.txt" "$folder/crates/bench/src/main.rt"
cd "$folder/crates/bench"
rt run
