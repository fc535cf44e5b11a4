#!/bin/sh
# Times one edit applied to a domain of 100,000 items beside one of 100, what looks up, puts by the size of their item,
# and a change that changes nothing, as ratios in one run.
set -eu
. "$(dirname "$0")/folder.sh"
make_folder sdb_base sdb_pairs sdb_domain -- anyhow sdb_base sdb_domain sdb_pairs
cp "$top/tools/bench/sdb_domain.txt" src/main.rt
rt run
