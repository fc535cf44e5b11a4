#!/bin/sh
# Times the cutting of Select expressions into tokens, as a ratio in one run. No program of the repository is
# changed: the crates are copied to a temporary folder, which gets a program of its own.
set -eu
top=$(cd "$(dirname "$0")/../.." && pwd)
folder=$(mktemp -d)
trap 'rm -rf "$folder"' EXIT
mkdir -p "$folder/crates/bench/src"
cp -r "$top/crates/sdb_base" "$top/crates/sdb_lex" "$folder/crates/"
printf 'sdb_base: arrayvec thiserror\nsdb_lex: sdb_base thiserror\nbench: sdb_lex sdb_base anyhow\n' > "$folder/crates.txt"
cp "$top/tools/bench/sdb_lex.txt" "$folder/crates/bench/src/main.rt"
cd "$folder/crates/bench"
rt run
