#!/bin/sh
# Times the body of a page of 2,500 items with five pairs each, beside a copy of as many bytes, each the best of 50 in
# one run. Shows the bytes, the microseconds of the body and of the copy, and the copy's part of the body's time in
# thousandths.
set -eu
. "$(dirname "$0")/folder.sh"
make_folder sdb_base sdb_form sdb_tables sdb_pairs sdb_action sdb_domain sdb_http sdb_reply -- anyhow sdb_base sdb_pairs sdb_reply
cp "$top/tools/bench/sdb_reply.txt" src/main.rt
rt run
