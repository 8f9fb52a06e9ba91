#!/bin/sh
# Serves real clients: redis-cli in both versions of the protocol, from a pipe, by --pipe and at a terminal,
# redis-benchmark with sixteen commands at once, and Python's package redis (clients.py), each
# connection by a server of its own. Says what each was answered, and ends with status 1 where an
# answer isn't the one that is wanted. What is wanted is what redis-server 7.0.15 answers them.
#
# Debian has what it needs: apt-get install redis-tools socat bsdutils python3-redis. The program is
# proved and built first where `rt run` hasn't yet left it in out/.
#
#     ./run-with-clients.sh [PORT]
set -eu
cd "$(dirname "$0")"
port=${1:-7778}
program=out/example_server
[ -x "$program" ] || rt run < stdin > /dev/null

socat "TCP-LISTEN:$port,bind=127.0.0.1,reuseaddr,fork" "EXEC:$program" &
server=$!
trap 'kill "$server"' EXIT
until redis-cli -p "$port" ping > /dev/null 2>&1; do
    kill -0 "$server"
    sleep 0.1
done

# Says what a client shows, and ends the script where it isn't what is wanted.
wanted() {
    echo "$1: $2"
    [ "$2" = "$3" ] || { echo "wanted: $3"; exit 1; }
}

# The commands of standard input over one connection, and what they have to show.
session() {
    wanted "redis-cli $1" "$(redis-cli -p "$port" --no-raw "$1" 2>&1 | tr -s '\n ' ' ')" "$2 "
}

commands="set name Ada ex 100
get name
set name Grace nx
set name Grace xx get
exists name name absent
incr count
incr name
expire name 10
hset user age 36 name Ada
hgetall user
get user
multi
incr count
set name
exec
multi
incr count
hgetall user
get user
exec
exec
del name user count
select 99
client setname worker
client getname
flushall now"

# What they show, where $1 and $2 are the fields of a hash in that version.
shown() {
    echo 'OK "Ada" (nil) "Ada" (integer) 2 (integer) 1' \
        '(error) ERR value is not an integer or out of range (integer) 1 (integer) 2' "$1" \
        '(error) WRONGTYPE Operation against a key holding the wrong kind of value OK QUEUED' \
        "(error) ERR wrong number of arguments for 'set' command" \
        '(error) EXECABORT Transaction discarded because of previous errors. OK QUEUED QUEUED' \
        "QUEUED 1) (integer) 2 2) $1" \
        '3) (error) WRONGTYPE Operation against a key holding the wrong kind of value' \
        '(error) ERR EXEC without MULTI (integer) 3 (error) ERR DB index is out of range OK' \
        "\"worker\" (error) ERR unknown command 'flushall', with args beginning with: 'now'"
}

echo "$commands" | session -2 "$(shown '1) "age" 2) "36" 3) "name" 4) "Ada"')"
echo "$commands" | session -3 "$(shown '1# "age" => "36" 2# "name" => "Ada"')"

# At a terminal redis-cli asks for the documents of commands first.
for version in -2 -3; do
    terminal=$( (sleep 1; echo ping; sleep 1; echo quit) |
        TERM=dumb timeout 10 script -qec "redis-cli -p $port $version" /dev/null | grep -o PONG)
    wanted "redis-cli $version at a terminal" "$terminal" PONG
    documents=$(echo command docs | redis-cli -p "$port" --no-raw "$version" | grep -o empty)
    wanted "redis-cli $version, command docs" "$documents" empty
done

piped=$(seq 1000 | sed 's/.*/SET key& "value &"/' | redis-cli -p "$port" --pipe | tail -1)
wanted 'redis-cli --pipe' "$piped" 'errors: 0, replies: 1000'

served=$(redis-benchmark -p "$port" -t ping_inline,set,get,incr -n 2000 -c 4 -P 16 -q 2>&1 |
    tr '\r' '\n' | grep 'requests per second' | sed 's/:.*//' | tr '\n' ' ')
wanted redis-benchmark "$served" 'PING_INLINE SET GET INCR '

/usr/bin/python3 clients.py "$port"
