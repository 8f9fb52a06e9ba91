"""What Python's package redis is answered over a port: python3 clients.py PORT."""

import sys

import redis

server = redis.Redis(port=int(sys.argv[1]), decode_responses=True)
tried = 0


def wanted(shown, want):
    global tried
    tried += 1
    if shown != want:
        sys.exit(f"python redis: {shown!r} in place of {want!r}")


def refused(call, text):
    try:
        shown = call()
    except redis.ResponseError as error:
        shown = f"{type(error).__name__} {error}"
    wanted(shown, text)


with server.client() as one:  # over one connection, since servers of two share nothing
    wanted(one.ping(), True)
    wanted(one.echo("hi"), "hi")
    wanted(one.client_setname("worker"), True)
    wanted(one.client_getname(), "worker")
    wanted(one.client_id() > 0, True)
    wanted(one.set("name", "Ada", ex=100), True)
    wanted(one.set("name", "Grace", nx=True), None)
    wanted(one.set("name", "Grace", get=True), "Ada")
    wanted(one.get("name"), "Grace")
    wanted(one.exists("name", "name", "absent"), 2)
    wanted(one.expire("name", 10), True)
    wanted(one.execute_command("INCR", "count"), 1)  # incr() sends INCRBY
    refused(
        lambda: one.execute_command("INCR", "name"),
        "ResponseError value is not an integer or out of range",
    )
    wanted(one.hset("user", mapping={"age": "36", "name": "Ada"}), 2)
    wanted(one.hgetall("user"), {"age": "36", "name": "Ada"})
    refused(
        lambda: one.get("user"),
        "ResponseError WRONGTYPE Operation against a key holding the wrong kind of value",
    )
    refused(
        lambda: one.execute_command("FOO", "a"),
        "ResponseError unknown command 'FOO', with args beginning with: 'a' ",
    )
    wanted(one.delete("name", "count", "absent"), 2)

# several commands at once, and a transaction, are sent over one connection
several = server.pipeline(transaction=False).set("b", 7).execute_command("INCR", "b").get("b")
wanted(several.execute(), [True, 8, "8"])
transaction = server.pipeline().set("a", 1).execute_command("INCR", "a").hset("h", "x", "1")
shown = transaction.hgetall("h").get("h").execute(raise_on_error=False)
wanted(shown[:4], [True, 2, 1, {"x": "1"}])
wanted(type(shown[4]).__name__, "ResponseError")
print(f"python redis {redis.__version__}: {tried} answers")
