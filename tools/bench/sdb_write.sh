#!/bin/sh
# Times decisions on puts and batches: by the number of pairs, and by the number of items in the domain, as ratios in
# one run. No program of the repository is changed: the crates are copied to a temporary folder, which
# gets a program of its own.
set -eu
top=$(cd "$(dirname "$0")/../.." && pwd)
folder=$(mktemp -d)
trap 'rm -rf "$folder"' EXIT
mkdir -p "$folder/crates/bench/src"
for name in sdb_base sdb_form sdb_tables sdb_pairs sdb_action sdb_domain sdb_write; do
    cp -r "$top/crates/$name" "$folder/crates/"
    grep "^$name:" "$top/crates.txt" >> "$folder/crates.txt"
done
printf 'bench: sdb_write sdb_action sdb_domain sdb_form sdb_pairs sdb_base anyhow\n' >> "$folder/crates.txt"
cp "$top/tools/bench/sdb_write.txt" "$folder/crates/bench/src/main.rt"
# What was read of parameters is lawful, so it may be decided.
mkdir -p "$folder/crates/bench/proofs/time_of"
cat > "$folder/crates/bench/proofs/time_of/Answers.antt" <<'ANSWER'
use Rattle.sdb_action.proofs.LawfulLemmas.{asked_is_lawful_lem}
use Rattle.bench.proofs.time_of.Goals as goal

pub decide-decided-requires-clause-asked : goal.decide-decided-requires-clause-asked
decide-decided-requires-clause-asked g c = asked_is_lawful_lem _ _ _ c.in_ok-request.ensures
ANSWER
cd "$folder/crates/bench"
rt run
