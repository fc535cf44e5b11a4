#!/bin/sh
# Instructions that a signed get (9 parameters) and a signed put of five (19) take through `Core::step`, a piece and its
# commit each, over a disk in memory, beside those of the layers below: the piece taken into a table and a line, and the
# arrival answered, staged and committed over a store. By valgrind's callgrind, which counts them whatever else the
# machine does.
set -eu
. "$(dirname "$0")/folder.sh"
make_folder sdb_base sdb_tables sdb_io sdb_format sdb_disk sdb_form sdb_time sdb_keys sdb_sign sdb_http sdb_pairs sdb_record \
    sdb_journal sdb_token sdb_domain sdb_store sdb_action sdb_write sdb_reply sdb_cost sdb_lex sdb_parse sdb_pred sdb_page \
    sdb_answer sdb_arrivals sdb_respond sdb_core \
    -- anyhow sdb_arrivals sdb_base sdb_core sdb_disk sdb_keys sdb_respond sdb_store sdb_tables
cp "$top/tools/bench/sdb_core.txt" src/main.rt
mkdir -p proofs/serve_all proofs/answer_all
cat > proofs/serve_all/Invariants.antt <<'PROOF'
use Rattle.sdb_store.specs.Kept.{Ready}
use Rattle.bench.proofs.serve_all.Given as goal

abbrev pub invariant-rounds : goal.invariant-rounds
invariant-rounds g l = Ready l.core.store (g.D.Disk.state l.disk)
PROOF
cat > proofs/answer_all/Invariants.antt <<'PROOF'
use Rattle.std.proofs.Common.{◌≡◌, [], true}
use Rattle.sdb_store.specs.Kept.{Ready}
use Rattle.bench.proofs.answer_all.Given as goal

abbrev pub invariant-rounds : goal.invariant-rounds
invariant-rounds g l = Ready l.store (g.D.Disk.state l.disk) × (l.store.sound ≡ true) × (l.store.pending ≡ [])
PROOF
touch proofs/Lib.antt
python3 "$top/tools/bench/sdb_sign.py" forms > "$folder/forms"
python3 "$top/tools/bench/sdb_sign.py" create > "$folder/create"

# The input of a run: 1 a core, 2 a table and a line, 3 a store; how many rounds; which form.
input() {
    echo "$1"
    echo "$2"
    cat "$folder/create"
    sed -n "$3p" "$folder/forms"
}
input 1 1 1 | rt run > /dev/null
instructions() {
    input "$1" "$2" "$3" > "$folder/input"
    valgrind --tool=callgrind --callgrind-out-file=/dev/null out/bench < "$folder/input" 2>&1 > /dev/null | sed -n 's/.*Collected : //p'
}
for form in 1 2; do
    for part in 1 2 3; do
        echo "form $form part $part $((($(instructions $part 1100 $form) - $(instructions $part 100 $form)) / 1000))"
    done
done
