#!/bin/sh
# Times an echo over the server's connections beside one over a plain socket of std, in one run: one connection, where
# each question waits for its answer, and 32 at once. No program of the repository is changed: the crates are copied to a
# temporary folder, which gets a program of its own. It needs a C compiler, for the client.
set -eu
top=$(cd "$(dirname "$0")/../.." && pwd)
folder=$(mktemp -d)
server=
trap '[ -z "$server" ] || kill "$server"; rm -rf "$folder"' EXIT
mkdir -p "$folder/crates/bench/src"
cp -r "$top/crates/sdb_base" "$top/crates/sdb_io" "$top/crates/sdb_net" "$folder/crates/"
grep -E '^sdb_(base|io|net):' "$top/crates.txt" > "$folder/crates.txt"
printf 'bench: sdb_net sdb_io anyhow\n' >> "$folder/crates.txt"
cp "$top/HANDLES" "$folder/"
cp "$top/tools/bench/sdb_net.txt" "$folder/crates/bench/src/main.rt"
cc -O2 -o "$folder/client" "$top/tools/bench/sdb_net.c"
cd "$folder/crates/bench"
rt run >/dev/null 2>&1 || [ -x out/bench ]
port=18080
for turn in 1 2 3; do
    for way in plain links; do
        port=$((port + 1))
        out/bench "$way" "$port" &
        server=$!
        sleep 0.3
        printf '%s, one connection: %s ns a question\n' "$way" "$("$folder/client" "$port" 1 100000)"
        if [ "$way" = links ]; then
            printf '%s, 32 connections: %s ns a question\n' "$way" "$("$folder/client" "$port" 32 200000)"
        fi
        kill "$server"
        wait "$server" 2>/dev/null || true
        server=
    done
done
