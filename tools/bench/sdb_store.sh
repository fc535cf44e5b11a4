#!/bin/sh
# Times the opening of a store with 4 MiB of journal beside the opening by sqlite of a write-ahead log of the same puts,
# one transaction each, in one run; and shows the memory that is held after the opening beside that of the accounts alone,
# made by the same edits.
set -eu
. "$(dirname "$0")/folder.sh"
make_folder sdb_base sdb_disk sdb_format sdb_pairs sdb_record sdb_journal sdb_domain sdb_store -- anyhow sdb_base sdb_disk sdb_domain sdb_pairs sdb_store
cp "$top/tools/bench/sdb_store.txt" src/main.rt
python3 "$top/tools/bench/sdb_journal.py" records
printf '0\n\n' | rt run > /dev/null
python3 "$top/tools/bench/sdb_store.py" out/bench "$folder"
