#!/usr/bin/env bash
# The life of a store: a session is replayed, the store is checked, a server on it is killed right after it has answered a
# put, and the store is checked again. It writes each step and what came of it.
# Usage: life.sh PROGRAM PORT, with a port that is free.
set -u

program=$(realpath "$1") port=$2
here=$(cd "$(dirname "$0")" && pwd)
folder=$(mktemp -d)
trap 'rm -rf "$folder"' EXIT
cp "$here/../replay/sdb.keys" "$folder"
cd "$folder" || exit 1

echo 'sdb replay < session.script > answers'
"$program" replay <"$here/../replay/session.script" >answers
echo "status $?"
echo 'sdb check'
"$program" check

echo "sdb serve PORT 1000, a put into the item i2, and kill -9 once it is answered"
"$program" serve "$port" 1000 2>/dev/null &
server=$!
disown
echo "answered $(python3 "$here/put.py" "$port")"
kill -9 "$server"
while kill -0 "$server" 2>/dev/null; do sleep 0.1; done

echo 'sdb check'
"$program" check
