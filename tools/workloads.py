"""Replies that the benches read, the programs over hiredis, and counts of instructions."""

import os
import pathlib
import re
import subprocess

ROOT = pathlib.Path(__file__).resolve().parent.parent
SOURCES = ROOT / "bindings/c"
PARTS = ("alloc", "async", "hiredis", "net", "read", "sds")


def bulk(text):
    return b"$%d\r\n%s\r\n" % (len(text), text)


def array(*elements):
    return b"*%d\r\n" % len(elements) + b"".join(elements)


def nested(levels):
    return b"*1\r\n" * levels + b":1\r\n"


def user(number):
    """A map of eight pairs, with values of several types."""
    pairs = [
        (bulk(b"id"), b":%d\r\n" % number),
        (bulk(b"name"), bulk(b"user-%06d" % number)),
        (bulk(b"balance"), b",%d.75\r\n" % number),
        (bulk(b"enabled"), b"#t\r\n"),
        (bulk(b"comment"), b"_\r\n"),
        (b"+role\r\n", b"+reader\r\n"),
        (bulk(b"groups"), b"~2\r\n+a\r\n+b\r\n"),
        (bulk(b"visits"), array(b":1\r\n", b":22\r\n", b":333\r\n")),
    ]
    return b"%%%d\r\n" % len(pairs) + b"".join(key + value for key, value in pairs)


# What a workload is, and its replies: as many that what is done once a round counts little.
WORKLOADS = {
    "`+OK`, `:1` and `$5 hello` in turn": (b"+OK\r\n:1\r\n" + bulk(b"hello")) * 2000,
    "arrays of 100 strings of 20 bytes": array(*[bulk(b"element-%012d" % i) for i in range(100)]) * 50,
    "strings of 1 MiB": bulk(bytes(i * 7 % 251 for i in range(1 << 20))) * 2,
    "arrays 7 deep": nested(7) * 1000,
    "arrays 95 deep": nested(95) * 100,
    "RESP3 maps of 8 pairs": b"".join(user(i) for i in range(200)),
}


def instructions(program, *words):
    """The instructions of a run, by callgrind, and what it prints; nothing where it fails."""
    done = subprocess.run(
        ["valgrind", "--tool=callgrind", "--callgrind-out-file=/dev/null", program, *map(str, words)],
        capture_output=True,
        text=True,
        check=False,
    )
    if done.returncode:
        return None
    return int(re.search(r"Collected : (\d+)", done.stderr).group(1)), done.stdout


def per_unit(program, *words, untimed=0):
    """The instructions of a second round, by the units of one: a program's last word is its rounds."""
    one, two = instructions(program, *words, 1 - untimed), instructions(program, *words, 2 - untimed)
    return (two[0] - one[0]) / int(one[1].split()[0]) if one and two else None


def build_hiredis(folder, source):
    """Builds a program over each hiredis that is here: the installed one, and that of the folder HIREDIS."""
    common = ["gcc", "-O2", "-w", "-I", str(SOURCES), str(SOURCES / source)]
    if source == "bench_hiredis.c":
        common.append(str(SOURCES / "bench.c"))
    made = [folder / "installed"]
    subprocess.run([*common, "-lhiredis", "-o", str(made[0])], check=True)
    if "HIREDIS" in os.environ:
        sources = pathlib.Path(os.environ["HIREDIS"]).resolve()
        (folder / "hiredis").symlink_to(sources)
        parts = [str(sources / f"{part}.c") for part in PARTS]
        made.insert(0, folder / "sources")
        subprocess.run([*common, "-I", str(folder), *parts, "-o", str(made[0])], check=True)
    return made
