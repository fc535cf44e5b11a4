#!/bin/sh
# Times the workload with n = 100, replayed over a disk in memory by a program of its own and over real files by `sdb replay`,
# beside boto3 against moto, in one run: see replay.py.
set -eu
. "$(dirname "$0")/folder.sh"
make_folder sdb_base sdb_tables sdb_status sdb_io sdb_format sdb_disk sdb_form sdb_time sdb_keys sdb_sign sdb_http sdb_pairs \
    sdb_record sdb_journal sdb_token sdb_domain sdb_store sdb_action sdb_write sdb_reply sdb_cost sdb_lex sdb_parse sdb_pred \
    sdb_page sdb_answer sdb_arrivals sdb_respond sdb_core sdb_script sdb_replay \
    -- anyhow sdb_base sdb_disk sdb_io sdb_replay sdb_status
cp "$top/tools/bench/replay.txt" src/main.rt
rt run < /dev/null
python3 "$top/tools/bench/replay.py" "$PWD/out/bench" "$top/crates/sdb/out/sdb"
