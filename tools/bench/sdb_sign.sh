#!/bin/sh
# Signed verifications per second by `sdb_sign::verify`, beside Python on the same requests in one run: its
# whole check (escapes, order, HMAC, base64), and its hmac alone on the same texts to sign. Python signs the
# requests. Each line shows the attributes of a put, the bytes of its text to sign, the three rates, and the
# ratio of `verify` to each of Python's.
set -e
top=$(cd "$(dirname "$0")/../.." && pwd)
work=$(mktemp -d)
trap 'rm -rf "$work"' EXIT
cp -r "$top/crates" "$top/crates.txt" "$work"
cd "$work"
git init -q .
mkdir -p crates/sign_bench/src
cp "$top/tools/bench/sdb_sign.txt" crates/sign_bench/src/main.rt
echo 'sign_bench: sdb_base sdb_form sdb_keys sdb_sign' >> crates.txt
python3 "$top/tools/bench/sdb_sign.py" make > requests
cd crates/sign_bench
rt run < "$work/requests" > "$work/rates"
python3 "$top/tools/bench/sdb_sign.py" show "$work/requests" "$work/rates"
