#!/usr/bin/python3
"""tools/bench/bench.py [PROGRAM [WORD]]: times a built program on made workloads, those whose names
have WORD.

PROGRAM is crates/bwe/out/bwe where it is left out. A WORD that begins with v4, as `v4` and `v4 hub`,
takes the workloads of version 4 instead, up to a million tasks; `tools/bench/sizes.py` draws how
their times grow. A workload is a line and its input, made anew
from a fixed seed. Each is run a few times, by `hyperfine` where that is installed. A row: the
workload, bytes of input, least and median seconds.
"""

import json
import random
import shlex
import shutil
import statistics
import subprocess
import sys
import tempfile
import time
from pathlib import Path

import wide

TOP = Path(__file__).resolve().parents[2]
RUNS = 5
MOST = 1_000_000_000


# Documents.


def function(dice, points, share, amount):
    """A rising function of so many points up to a share and an amount."""
    shares = sorted(dice.sample(range(1, share + 1), points))
    amounts = sorted(dice.randint(0, amount) for _ in shares)
    return [[0, 0]] + [list(point) for point in zip(shares, amounts)]


def job(dice, name, tasks, points):
    """A job of the tasks, named by their numbers, of four reporters in turn."""
    own = [
        {"name": f"t{task}", "reporter": f"r{task % 4}", "weight": 1 + task % 3} for task in tasks
    ]
    return {"name": name, "task": function(dice, points, MOST, 100_000), "tasks": own}


def reports(dice, tasks, count):
    """The first demand of each task, and then as many further reports as there are to be in all."""
    order = [*range(tasks), *(dice.randrange(tasks) for _ in range(count - tasks))]
    return [
        {"reporter": f"r{task % 4}", "task": f"t{task}", "demand": dice.randint(0, 120_000)}
        for task in order
    ]


def document(
    seed, groups, tasks, links=64, path_groups=2, hops=2, points=4, count=None, capacity=5_000_000
):
    """Groups whose paths are chains of links along a line of sites, several links a hop."""
    dice = random.Random(seed)
    sites = hops + 1
    wan = [
        {
            "name": f"l{number}",
            "from": f"s{number % hops}",
            "to": f"s{number % hops + 1}",
            "capacity": dice.randint(1, capacity),
        }
        for number in range(links)
    ]
    by_hop = [[link["name"] for link in wan if link["from"] == f"s{hop}"] for hop in range(hops)]
    made = []
    for number in range(groups):
        paths = [
            [
                {"weight": dice.randint(1, 4), "links": [dice.choice(names) for names in by_hop]}
                for _ in range(2)
            ]
            for _ in range(path_groups)
        ]
        users = [
            {
                "name": "u0",
                "function": function(dice, points, MOST, 1_000_000_000),
                "jobs": [job(dice, "j0", range(number, tasks, groups), points)],
            }
        ]
        made.append(
            {
                "name": f"g{number}",
                "from": "s0",
                "to": f"s{sites - 1}",
                "paths": paths,
                "users": users,
            }
        )
    return {
        "version": 3,
        "top": MOST,
        "links": wan,
        "groups": made,
        "reporters": [f"r{number}" for number in range(4)],
        "script": reports(dice, tasks, count or tasks),
    }


def text(given):
    return json.dumps(given, separators=(",", ":")).encode()


def parts(first, second):
    return b"%d\n%s%s" % (len(first), first, second)


# Workloads.


def written(program, words, given):
    return subprocess.run([program, *words], input=given, capture_output=True, check=False).stdout


def closings_of(table):
    """The closings that a table tells, as a document lists them."""
    lines = (line.split() for line in table.decode().splitlines())
    return [{"link": words[1], "share": int(words[3])} for words in lines if words[0] == "closing"]


def workloads(program):
    """Each workload by name: the words and the input."""
    crowd = text(document(1, groups=8, tasks=20_000))
    wide = document(2, groups=1_024, tasks=4_096, links=4_096, path_groups=4, hops=8)
    small = text(document(3, groups=8, tasks=64, links=16))
    yield "solve: 20,000 tasks in 8 groups", ["solve"], crowd
    yield "solve: 1,024 groups, 4,096 links, 8 hops", ["solve"], text(wide)
    yield "solve: functions of 256 points", ["solve"], text(
        document(4, groups=64, tasks=512, points=255)
    )
    yield "solve: 200,000 reports", ["solve"], text(
        document(5, groups=64, tasks=4_096, count=200_000)
    )
    yield "solve: 16 path groups", ["solve"], text(
        document(6, groups=256, tasks=1_024, path_groups=16, capacity=400_000)
    )
    closings = closings_of(written(program, ["solve"], text(wide)))
    yield "check: the closings of 1,024 groups", ["check"], text({**wide, "closings": closings})
    yield "levels: 20,000 tasks", ["levels", "500000000"], crowd
    yield "tiers: 1,024 groups in 8 tiers", ["tiers"], parts(text(wide), b"01234567" * 128 + b"\n")
    samples = b"".join(
        b"r%d t%d %d\n" % (number % 4, number % 64, number % 9_973) for number in range(100_000)
    )
    yield "estimate: 100,000 samples, a window of 100", ["estimate", "100", "150"], parts(
        small, samples
    )
    events = b"".join(
        b"post %d\nsend %d\ndeliver %d\nreply %d\n" % (number, number % 4, number, number)
        for number in range(500)
    )
    yield "enforce: 2,000 events", ["enforce"], parts(small, events)
    busy = ["run", "--readers", "64", "--reads", "1000"]
    yield "run: 64 readers, 1,000 reads", busy, small
    yield "audit: such a run", ["audit"], parts(small, written(program, busy, small))
    yield "make: 1,024 groups, 20,000 tasks", ["make", "1", "1024", "20000"], b""
    yield "bulk: the same", ["bulk", "1", "1024", "20000"], b""


def large_workloads(program):
    """Those of version 4, on the networks of tools/bench/wide.py."""
    yield "v4 solve: 33 sites, 20,000 tasks", ["solve"], b"".join(wide.wan(1, 33, 20_000))
    middle = b"".join(wide.wan(1, 100, 200_000))
    yield "v4 solve: 100 sites, 200,000 tasks", ["solve"], middle
    closings = closings_of(written(program, ["solve"], middle))
    listed = text({**json.loads(middle), "closings": closings})
    yield "v4 check: its closings", ["check"], listed
    yield "v4 levels: the same", ["levels", "500000"], middle
    yield "v4 tiers: the same in four tiers", ["tiers"], parts(middle, b"0123" * 2_475 + b"\n")
    trunks = {"trunks": 16, "load": 300}
    yield "v4 solve: 100 sites, 9,000 links", ["solve"], b"".join(
        wide.wan(2, 100, 100_000, **trunks)
    )
    yield "v4 solve: 256 sites, 1,048,576 tasks", ["solve"], b"".join(wide.wan(1, 256, 1_048_576))
    yield "v4 solve: 256 sites, 38,000 links", ["solve"], b"".join(
        wide.wan(2, 256, 300_000, trunks=26, load=300)
    )
    for kind in wide.KINDS:
        links = 65_536 - (kind == "shed")
        made = wide.text(wide.hard(kind, 1, links, 131_072))
        yield f"v4 solve: {kind}, {links:,} links", ["solve"], made


# Times.


def seconds_by_hyperfine(program, words, given, room):
    told = f"{room}/times.json"
    command = [
        "hyperfine",
        "--runs",
        str(RUNS),
        "--ignore-failure",
        "--style=basic",
        "--export-json",
        told,
        f"{shlex.join([program, *words])} <{given}",
    ]
    subprocess.run(command, check=True, stdout=subprocess.DEVNULL, stderr=subprocess.DEVNULL)
    return json.loads(Path(told).read_text())["results"][0]["times"]


def seconds(program, words, given, room):
    if shutil.which("hyperfine"):
        return seconds_by_hyperfine(program, words, given, room)
    times = []
    for _ in range(RUNS):
        with open(given, "rb") as source:
            began = time.perf_counter()
            subprocess.run([program, *words], stdin=source, stdout=subprocess.DEVNULL, check=False)
            times.append(time.perf_counter() - began)
    return times


def main(words):
    if words[:1] == ["--help"]:
        print(__doc__)
        return 0
    program = str(Path(words[0] if words else TOP / "crates/bwe/out/bwe").resolve())
    wanted = words[1] if len(words) > 1 else ""
    print("| workload | bytes | least s | median s |\n|---|---:|---:|---:|")
    with tempfile.TemporaryDirectory() as room:
        made = large_workloads if wanted.startswith("v4") else workloads
        for name, line, given in made(program):
            if wanted not in name:
                continue
            file = Path(room, "input")
            file.write_bytes(given)
            times = seconds(program, line, file, room)
            print(
                f"| {name} | {len(given):,} | {min(times):.3f} | {statistics.median(times):.3f} |",
                flush=True,
            )
    return 0


if __name__ == "__main__":
    sys.exit(main(sys.argv[1:]))
