#!/bin/sh
# Instructions that the core's first steps take, by valgrind's callgrind, which counts them whatever else the
# machine does: a head of 300 bytes framed, a signed get (9 parameters) and a signed put of five (19) verified, and
# both as pieces of a connection: framed, read as a form, verified and read as a request.
set -e
top=$(cd "$(dirname "$0")/../.." && pwd)
work=$(mktemp -d)
trap 'rm -rf "$work"' EXIT
cp -r "$top/crates" "$top/crates.txt" "$work"
cd "$work"
git init -q .
mkdir -p crates/request_bench/src
cp "$top/tools/bench/requests.txt" crates/request_bench/src/main.rt
echo 'request_bench: sdb_arrivals sdb_base sdb_form sdb_http sdb_keys sdb_sign' >> crates.txt
python3 "$top/tools/bench/sdb_sign.py" forms > forms
cd crates/request_bench
printf '1\n1\n1\n' | cat - ../../forms | head -4 | rt run > /dev/null

# Instructions of a run: how many heads, how many forms, how many pieces, which form.
instructions() {
    { echo "$1"; echo "$2"; echo "$3"; sed -n "$4p" ../../forms; } > input
    valgrind --tool=callgrind --callgrind-out-file=/dev/null out/request_bench < input 2>&1 > /dev/null | sed -n 's/.*Collected : //p'
}
none=$(instructions 0 0 0 1)
none_of_put=$(instructions 0 0 0 2)
echo "head $((($(instructions 1000 0 0 1) - none) / 1000))"
echo "get $((($(instructions 0 1000 0 1) - none) / 1000))"
echo "put $((($(instructions 0 1000 0 2) - none_of_put) / 1000))"
echo "get that arrives $((($(instructions 0 0 1000 1) - none) / 1000))"
echo "put that arrives $((($(instructions 0 0 1000 2) - none_of_put) / 1000))"
