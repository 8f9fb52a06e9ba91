#!/bin/sh
# Runs the program with a redis-server of its own: starts one on a port of this machine, 7777 or the
# one that is given, stores a profile, a key that is no counter, an author and a title, joins the two
# by socat, and ends the server again.
#
# Debian has both as packages: apt-get install redis-server socat. The program is proved and built
# first where `rt run` hasn't yet left it in out/.
set -eu
cd "$(dirname "$0")"
port=${1:-7777}
program=out/example_limiter
[ -x "$program" ] || rt run < stdin > /dev/null

redis-server --bind 127.0.0.1 --port "$port" --save '' > /dev/null &
server=$!
trap 'kill "$server"; wait' EXIT
until redis-cli -p "$port" ping > /dev/null 2>&1; do
    kill -0 "$server"
    sleep 0.1
done
redis-cli -p "$port" hset profile:ada city London age 36 name Ada > /dev/null
redis-cli -p "$port" rpush limit:grace a > /dev/null
redis-cli -p "$port" hset author:1 name Ada born 1815 > /dev/null
redis-cli -p "$port" set title:2 Letters > /dev/null
socat "TCP:127.0.0.1:$port" "EXEC:$program"
