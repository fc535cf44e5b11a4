#!/bin/sh
# Times writing and reading of changes beside a copy of as many bytes, as ratios in one run; and, by a C program that checks
# nothing, what owning the texts alone takes.
set -eu
. "$(dirname "$0")/folder.sh"
make_folder sdb_base sdb_disk sdb_format sdb_pairs sdb_record -- anyhow sdb_base sdb_pairs sdb_record
cp "$top/tools/bench/sdb_record.txt" src/main.rt
cc -O2 -o "$folder/texts" "$top/tools/bench/sdb_record.c"
rt run
"$folder/texts"
