#!/bin/sh
# Times writes of a disk in memory and of real files, as ratios in one run. No program of the repository is
# changed: the crates are copied to a temporary folder, which gets a program of its own.
set -eu
top=$(cd "$(dirname "$0")/../.." && pwd)
folder=$(mktemp -d)
trap 'rm -rf "$folder"' EXIT
mkdir -p "$folder/crates/bench/src"
cp -r "$top/crates/sdb_base" "$top/crates/sdb_disk" "$folder/crates/"
printf 'sdb_base: arrayvec thiserror\nsdb_disk: sdb_base thiserror\nbench: sdb_disk sdb_base anyhow\n' > "$folder/crates.txt"
cp "$top/tools/bench/sdb_disk.txt" "$folder/crates/bench/src/main.rt"
cd "$folder/crates/bench"
rt run
