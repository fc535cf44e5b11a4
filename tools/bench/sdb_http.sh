#!/bin/sh
# Time of `sdb_http::Feed` on 4 MiB of requests in pieces of 1, 100 and 65,536 bytes, and on 1 MiB of CR LF.
# Each line shows what the stream is, the bytes of a piece, the microseconds that the stream takes, its bytes
# per microsecond, and how many requests were taken.
set -e
top=$(cd "$(dirname "$0")/../.." && pwd)
work=$(mktemp -d)
trap 'rm -rf "$work"' EXIT
cp -r "$top/crates" "$top/crates.txt" "$work"
cd "$work"
git init -q .
mkdir -p crates/http_bench/src
cp "$top/tools/bench/sdb_http.txt" crates/http_bench/src/main.rt
echo 'http_bench: sdb_http' >> crates.txt
cd crates/http_bench
rt run
