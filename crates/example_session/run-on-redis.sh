#!/bin/sh
# Runs the program with a redis-server of its own, over version 2 of the protocol and then over
# version 3, where two messages are published: starts one on a port of this machine, 7777 or the one
# that is given, joins the two by socat, and ends the server again.
#
# Debian has both as packages: apt-get install redis-server socat. The program is proved and built
# first where `rt run` hasn't yet left it in out/.
set -eu
cd "$(dirname "$0")"
port=${1:-7777}
program=out/example_session
[ -x "$program" ] || rt run -- $(cat args) < stdin > /dev/null

redis-server --bind 127.0.0.1 --port "$port" --save '' > /dev/null &
server=$!
trap 'kill "$server"; wait' EXIT
until redis-cli -p "$port" ping > /dev/null 2>&1; do
    kill -0 "$server"
    sleep 0.1
done
socat "TCP:127.0.0.1:$port" "EXEC:$program 2"
(
    until [ "$(redis-cli -p "$port" publish news hello)" = 1 ]; do sleep 0.1; done
    redis-cli -p "$port" publish news bye > /dev/null
) &
socat "TCP:127.0.0.1:$port" "EXEC:$program 3 news 3"
