#!/bin/sh
# Times puts into items and look-ups of names, as ratios in one run. No program of the repository is
# changed: the crates are copied to a temporary folder, which gets a program of its own.
set -eu
top=$(cd "$(dirname "$0")/../.." && pwd)
folder=$(mktemp -d)
trap 'rm -rf "$folder"' EXIT
mkdir -p "$folder/crates/bench/src"
cp -r "$top/crates/sdb_base" "$top/crates/sdb_pairs" "$folder/crates/"
printf 'sdb_base: arrayvec thiserror\nsdb_pairs: sdb_base\nbench: sdb_pairs sdb_base anyhow\n' > "$folder/crates.txt"
cp "$top/tools/bench/sdb_pairs.txt" "$folder/crates/bench/src/main.rt"
cd "$folder/crates/bench"
rt run
