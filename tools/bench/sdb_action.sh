#!/bin/sh
# Times the reading of puts with many attributes, as ratios in one run. No program of the repository is
# changed: the crates are copied to a temporary folder, which gets a program of its own.
set -eu
top=$(cd "$(dirname "$0")/../.." && pwd)
folder=$(mktemp -d)
trap 'rm -rf "$folder"' EXIT
mkdir -p "$folder/crates/bench/src"
for crate in sdb_base sdb_form sdb_tables sdb_action; do
    cp -r "$top/crates/$crate" "$folder/crates/"
    grep "^$crate:" "$top/crates.txt" >> "$folder/crates.txt"
done
echo 'bench: sdb_base sdb_form sdb_action anyhow' >> "$folder/crates.txt"
cp "$top/tools/bench/sdb_action.txt" "$folder/crates/bench/src/main.rt"
cd "$folder/crates/bench"
rt run
