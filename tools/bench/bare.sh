#!/usr/bin/env bash
# Times `sdb bare` over 1,000,000 CreateDomain lines with 100 names beside `cat` of its output, both
# written to a file, and prints the times and their ratio.
set -eu
top=$(cd "$(dirname "$0")/../.." && pwd)
work=$(mktemp -d)
trap 'rm -rf "$work"' EXIT
awk 'BEGIN { for (i = 0; i < 1000000; i++) printf "Action=CreateDomain&DomainName=domain%02d\n", i % 100 }' > "$work/lines"
"$top/tools/sdb" bare < /dev/null

# The shortest of three runs, in microseconds.
best() {
    local least=
    for _ in 1 2 3; do
        local from to
        from=$(date +%s%N)
        "$@"
        to=$(date +%s%N)
        local took=$(((to - from) / 1000))
        if [ -z "$least" ] || [ "$took" -lt "$least" ]; then least=$took; fi
    done
    echo "$least"
}
run_bare() { "$top/tools/sdb" bare < "$work/lines" > "$work/answers"; }
run_cat() { cat "$work/answers" > "$work/copy"; }

bare=$(best run_bare)
copy=$(best run_cat)
awk -v bare="$bare" -v copy="$copy" 'BEGIN { printf "bare %.2f s, cat %.2f s, ratio %.1f\n", bare / 1e6, copy / 1e6, bare / copy }'
