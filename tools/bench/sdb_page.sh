#!/bin/sh
# Times a Select by one scan beside SQLite's answer to the same query over a table without an index, in one run. No
# program of the repository is changed: the crates are copied to a temporary folder, which gets a program of its own.
set -eu
top=$(cd "$(dirname "$0")/../.." && pwd)
folder=$(mktemp -d)
trap 'rm -rf "$folder"' EXIT
mkdir -p "$folder/crates/bench/src"
for crate in sdb_base sdb_tables sdb_format sdb_lex sdb_parse sdb_pairs sdb_pred sdb_token sdb_domain sdb_page; do
    cp -r "$top/crates/$crate" "$folder/crates/"
    grep "^$crate:" "$top/crates.txt" >> "$folder/crates.txt"
done
echo 'bench: sdb_base sdb_domain sdb_page sdb_pairs sdb_parse anyhow' >> "$folder/crates.txt"
cp "$top/tools/bench/sdb_page.txt" "$folder/crates/bench/src/main.rt"
cd "$folder/crates/bench"
rt run > "$folder/times"
python3 "$top/tools/bench/sdb_page.py" < "$folder/times"
