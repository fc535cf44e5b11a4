#!/bin/sh
# Times the asking of conditions of an item, as ratios in one run.
set -eu
. "$(dirname "$0")/folder.sh"
make_folder sdb_base sdb_tables sdb_lex sdb_parse sdb_pairs sdb_pred -- anyhow sdb_base sdb_pairs sdb_parse sdb_pred
cp "$top/tools/bench/sdb_pred.txt" src/main.rt
rt run
