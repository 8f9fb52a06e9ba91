#!/bin/sh
# Has a redis-server write an append-only file, and checks it whole, cut short and with a byte turned,
# each beside redis-check-aof. Debian has the package redis-server, which brings both. The program is
# proved and built first where `rt run` hasn't yet left it in out/.
cd "$(dirname "$0")" || exit 1
program=$PWD/out/example_aof
port=${1:-7378}
[ -x "$program" ] || rt run > /dev/null
work=$(mktemp -d)
trap 'rm -r "$work"' EXIT
redis-server --port "$port" --save '' --appendonly yes --aof-use-rdb-preamble no --dir "$work" > /dev/null &
sleep 1
redis-cli -p "$port" set greeting hello > /dev/null
redis-cli -p "$port" rpush list 1 2 3 > /dev/null
redis-cli -p "$port" incr counter > /dev/null
redis-cli -p "$port" shutdown nosave
wait
cd "$work" || exit 1
cp appendonlydir/appendonly.aof.1.incr.aof whole
head -c -7 whole > cut
sed 's/^\$5/x5/' whole > turned
for file in whole cut turned; do
    "$program" "$file"
    echo n | redis-check-aof "$file" 2>&1 | tail -n 3
done
