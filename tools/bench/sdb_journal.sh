#!/bin/sh
# Times appends of 100 bytes to a journal over the real files beside a C program that makes the same four calls, and the
# reading of 4 MiB of records, the least of three runs of each in turn.
set -eu
. "$(dirname "$0")/folder.sh"
make_folder sdb_base sdb_disk sdb_format sdb_pairs sdb_record sdb_journal -- anyhow sdb_base sdb_disk sdb_journal sdb_record
cp "$top/tools/bench/sdb_journal.txt" src/main.rt
mkdir -p proofs/append_time
cat > proofs/append_time/Invariants.antt << 'END'
use Rattle.std.proofs.Common.{◌≡◌, false}
use Rattle.sdb_disk.specs.Disk.{SettledFile}
use Rattle.sdb_record.specs.Stands.{journal_of}
use Rattle.bench.proofs.append_time.Given as goal

abbrev pub invariant-loop : goal.invariant-loop
invariant-loop g l = ((g.D.Disk.state l.disk).told ≡ false) × SettledFile (g.D.Disk.state l.disk) (journal_of l.journal.generation)
END
cc -O2 -o "$folder/appends" "$top/tools/bench/sdb_journal.c"
python3 "$top/tools/bench/sdb_journal.py" records
rt run > "$folder/rates"
"$folder/appends" plain > "$folder/plain"
for turn in 2 3; do
    python3 "$top/tools/bench/sdb_journal.py" records > /dev/null
    out/bench >> "$folder/rates"
    "$folder/appends" plain >> "$folder/plain"
done
python3 "$top/tools/bench/sdb_journal.py" show "$folder/plain" "$folder/rates"
