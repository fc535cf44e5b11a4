#!/bin/sh
# Instructions that a put of one pair takes by the size of its item, by valgrind's callgrind, which counts them whatever
# else the machine does; and the greatest memory of a run in which items come and go, each under another name.
set -eu
. "$(dirname "$0")/folder.sh"
make_folder sdb_base sdb_pairs sdb_domain -- anyhow sdb_base sdb_domain sdb_pairs
cp "$top/tools/bench/edits.txt" src/main.rt
printf '1\n1\n1\n' | rt run > /dev/null

# Instructions of a run: the pairs of the item, how many puts.
instructions() {
    printf '%s\n%s\n0\n' "$1" "$2" |
        valgrind --tool=callgrind --callgrind-out-file=/dev/null out/bench 2>&1 > /dev/null | sed -n 's/.*Collected : //p'
}
for pairs in 1 16 64 256; do
    echo "a put into an item of $pairs: $((($(instructions $pairs 1000) - $(instructions $pairs 0)) / 1000)) instructions"
done

# The greatest memory of a run in which so many items come and go, in KiB, as the system counts it.
greatest() {
    printf '1\n0\n%s\n' "$1" | python3 -c '
import resource, subprocess, sys
subprocess.run(["out/bench"], stdin=sys.stdin, stdout=subprocess.DEVNULL, check=True)
print(resource.getrusage(resource.RUSAGE_CHILDREN).ru_maxrss)'
}
for items in 10 1000000; do
    echo "$items items come and go: $(greatest $items) KiB"
done
