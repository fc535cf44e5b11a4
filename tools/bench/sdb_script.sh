#!/usr/bin/env bash
# Times the reading of a script of 100 MB by `sdb_script::ScriptReader` beside `cat` of it into a file, for pieces
# of 300, 3,000 and 30,000 bytes. Each line shows the bytes of a piece, the least time of three runs of each, and
# the bytes a second of the reader as a part of those of `cat`.
set -eu
top=$(cd "$(dirname "$0")/../.." && pwd)
work=$(mktemp -d)
trap 'rm -rf "$work"' EXIT
cp -r "$top/crates" "$top/crates.txt" "$work"
cd "$work"
git init -q .
mkdir -p crates/script_bench/src
cp "$top/tools/bench/sdb_script.txt" crates/script_bench/src/main.rt
echo 'script_bench: sdb_io sdb_script' >> crates.txt
cd crates/script_bench
rt run < /dev/null
program=$(find out -maxdepth 1 -type f -perm -u+x -name script_bench)

# The shortest of three runs, in microseconds.
best() {
    local least=
    for _ in 1 2 3; do
        local from to
        from=$(date +%s%N)
        "$@"
        to=$(date +%s%N)
        local took=$(((to - from) / 1000))
        if [ -z "$least" ] || [ "$took" -lt "$least" ]; then least=$took; fi
    done
    echo "$least"
}
run_reader() { "$program" < "$work/script" > "$work/events"; }
run_cat() { cat "$work/script" > "$work/copy"; }

for size in 300 3000 30000; do
    python3 - "$size" > "$work/script" << 'END'
import sys
size = int(sys.argv[1])
record = f"D 1 1262304000 {size}\n{'x' * size}\n"
sys.stdout.write("O 1\n")
for _ in range(100_000_000 // len(record)):
    sys.stdout.write(record)
END
    reader=$(best run_reader)
    copy=$(best run_cat)
    awk -v size="$size" -v reader="$reader" -v copy="$copy" \
        'BEGIN { printf "pieces of %d bytes: reader %.3f s, cat %.3f s, ratio %.2f\n", size, reader / 1e6, copy / 1e6, copy / reader }'
done
