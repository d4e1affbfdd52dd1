#!/usr/bin/python3
"""tools/check/follow.py [COUNT [SEED]]: makes conversations by chance, holds them with `bwe-live`,
and compares.

A conversation is a document and lines: reports of demands and capacities, lines that are refused
for each cause, and lines `post` and `state`. Each line is sent once the answer to the one before
has come. After each `post` the change is put into the table that is kept, which then has to be the
table that `bwe solve` writes of the document with all accepted reports at the end of its script;
and the bytes have to be those of the change between both tables. The lines of a `state`, as the
script of the same document, have to give that table too. They are held side by side on all
processors; the last line says how many agreed, and the status is 0 where all did.

    follow.py 2000           2,000 conversations
    follow.py --posts [N]    N posts, 10,000 where it is left out, of documents of version 4 with
                             1,000 groups, each behind changed demands and capacities
    follow.py --long [N]     N reports, 1,000,000 where it is left out, with a post each 1,000,
                             on a document of 1,024 groups and 20,000 tasks: the peak of
                             memory beside that of the document alone, and the time of a post
                             after one changed demand beside that of `bwe solve`

The programs are crates/bwe/out/bwe and crates/bwe_live/out/bwe_live, or those that BWE and BWE_LIVE
name.
"""

import json
import os
import random
import statistics
import subprocess
import sys
import time
from concurrent.futures import ProcessPoolExecutor
from functools import partial
from pathlib import Path

TOP = Path(__file__).resolve().parents[2]
sys.path.append(str(TOP / "tools/bench"))

import bench  # noqa: E402
import compare  # noqa: E402
import live  # noqa: E402
from conversations import Fault, Talk  # noqa: E402

BWE = os.environ.get("BWE", TOP / "crates/bwe/out/bwe")
BWE_LIVE = os.environ.get("BWE_LIVE", TOP / "crates/bwe_live/out/bwe_live")
MOST_LINES, SECONDS = 60, 120
SIZE, BETWEEN_POSTS, TIMED = ["1", "1024", "20000"], 1_000, 21
POSTS, MOST_POSTS = 10_000, 250  # all, and those of one conversation


# ---- documents and lines by chance


def text_of(document):
    return json.dumps(document, separators=(",", ":")).encode()


def written(program, words, given=b""):
    ran = subprocess.run([program, *words], input=given, capture_output=True, timeout=SECONDS)
    if ran.returncode:
        raise Fault(f"bwe {' '.join(words)}: status {ran.returncode}, {ran.stdout[:200]!r}")
    return ran.stdout


def solved(program, document):
    return written(program, ["solve"], text_of(document)).decode()


def with_owners(chance, document):
    """The same document, in which reporters own about half of the links."""
    links = [
        dict(link, owner=chance.choice(document["reporters"])) if chance.random() < 0.5 else link
        for link in document["links"]
    ]
    return dict(document, version=3, links=links)


def make_document(chance, program):
    """One of tools/check/compare.py, of tools/bench/bench.py, or of `bwe make`."""
    kind = chance.randrange(6)
    groups = chance.randint(1, 20)
    tasks = chance.randint(groups, 5 * groups)
    if kind == 0:
        made = json.loads(written(program, ["make", str(chance.randrange(99)), str(groups), str(tasks)]))
        return made if chance.random() < 0.3 else with_owners(chance, made)
    if kind == 1:
        size = {"links": chance.randint(4, 20), "path_groups": 3, "capacity": 60_000 * tasks}
        return with_owners(chance, bench.document(chance.randrange(99), groups, tasks, **size))
    return compare.make_document(chance)


def make_report(chance, document, tasks):
    """A line of a report that is likely accepted; of a task for most, and at times of nothing."""
    owned = [link for link in document["links"] if "owner" in link]
    if owned and (not tasks or chance.random() < 0.3):
        link = chance.choice(owned)
        share = chance.choice([0, 0, 1, chance.random(), chance.random(), 2])
        return f"capacity {link['owner']} {link['name']} {int(link['capacity'] * share)}"
    if not tasks:
        return "demand nobody nothing 1"
    task, most = chance.choice(tasks), chance.choice([0, 150, 12_000, 120_000])
    return f"demand {task['reporter']} {task['name']} {chance.randint(0, most)}"


def make_bad(chance, report):
    """A line of about such a report that is likely refused, each cause for some."""
    kind, reporter, name, amount = report.split()
    return chance.choice(
        [
            "",
            "post now",
            f"{kind} {reporter} {name}",
            f"{kind} {reporter} {name} {amount} ",
            f"{kind} {reporter} {name} -{amount}",
            f"{kind} {reporter} {name} {'0' * 20}{amount}",
            f"{kind} {reporter} {name} {amount:>300}",
            f"{kind} {reporter}x {name} {amount}",
            f"{kind} {reporter} x{name} {amount}",
            f"{kind} {reporter} {name} {10**12 + int(amount) + 1}",
            f"{kind} {reporter} {name} {'9' * 20}",
            f"{kind} r1 {name} {amount}",
            f"{'demand' if kind == 'capacity' else 'capacity'} {reporter} {name} {amount}",
        ]
    )


def make_lines(chance, document):
    tasks = live.tasks_of(document)
    for _ in range(chance.randint(1, MOST_LINES)):
        report = make_report(chance, document, tasks)
        kind = chance.random()
        if kind < 0.6:
            yield report
        elif kind < 0.75:
            yield make_bad(chance, report)
        else:
            yield "post" if kind < 0.95 else "state"
    yield from ("post", "state", "post")


# ---- the comparison


def need(found, wanted, what):
    """A Fault with the first line that differs."""
    pairs = list(zip(found.split("\n"), wanted.split("\n")))
    differing = next((pair for pair in pairs if pair[0] != pair[1]), None)
    if found != wanted:
        raise Fault(f"{what}: {differing or (found[-80:], wanted[-80:])}, found and wanted")


def hold(talk, known, line):
    """Sends a line and compares its answer; gives the change of a `post`."""
    talk.send(line.encode() + b"\n")
    wanted = known.answer(line.encode() + b"\n")
    if line not in ("post", "state"):
        talk.expect(wanted.encode())
        return None
    found = talk.answer_to("total" if line == "post" else "state").decode()
    need(found, wanted, f"line {known.lines}, {line}")
    return found if line == "post" else None


def need_snapshot(program, known):
    """The lines of a state, as the script, give the table of all reports but for its first line."""
    reports = [known.judge(line)[1] for line in known.state().split("\n")[:-2]]
    snapshot = solved(program, dict(known.document, script=reports))
    need(snapshot.partition("\n")[2], known.table_of_all().partition("\n")[2], "the snapshot")


def hold_all(program, solver, chance):
    document = make_document(chance, solver)
    hold_lines(program, solver, document, make_lines(chance, document))


def hold_lines(program, solver, document, lines):
    known = live.Live(document, partial(solved, solver))
    given, kept = text_of(document), known.table
    with Talk(program) as talk:
        talk.send(b"%d\n%s" % (len(given), given))
        talk.expect(kept.encode())
        for line in lines:
            change = hold(talk, known, line)
            if change is not None:
                kept = live.with_change(kept, change)
                need(kept, known.table, "the table kept by changes")
        need_snapshot(solver, known)
        talk.end()
        talk.expect_status(0)


def result(program, solver, seed, number):
    """The name of a conversation, and what is wrong with the answers, or None."""
    try:
        hold_all(program, solver, random.Random(f"{seed} {number}"))
    except (Fault, live.Fault) as fault:
        return f"conversation {number} of seed {seed}", str(fault)
    return f"conversation {number}", None


def results(program, solver, count, seed=1):
    with ProcessPoolExecutor() as pool:
        return list(pool.map(partial(result, program, solver, seed), range(count), chunksize=2))


# ---- many posts of a large document


def make_posts(chance, document, count):
    """So many posts, each behind a few reports of demands and capacities, and at times many."""
    tasks = live.tasks_of(document)
    for _ in range(count):
        for _ in range(chance.choice([1, 1, 2, 5, 30, 400])):
            yield make_report(chance, document, tasks)
        yield "post"


def result_of_posts(program, solver, count, seed):
    """What is wrong with so many posts of a document of version 4 with 1,000 groups, or None."""
    chance = random.Random(f"posts {seed}")
    made = bench.document(seed, groups=1_000, tasks=4_000, links=600, path_groups=3)
    document = dict(with_owners(chance, made), version=4)
    name = f"{count} posts of seed {seed}"
    try:
        hold_lines(program, solver, document, make_posts(chance, document, count))
    except (Fault, live.Fault) as fault:
        return name, str(fault)
    return name, None


def results_of_posts(program, solver, count):
    """So many posts in conversations side by side: each has to be the change to the table that is
    made from nothing.
    """
    each = max(1, min(MOST_POSTS, count // (os.cpu_count() or 1)))
    with ProcessPoolExecutor() as pool:
        job = partial(result_of_posts, program, solver, each)
        return list(pool.map(job, range(1, -(-count // each) + 1)))


# ---- a long run


def seconds_of_solve(given):
    times = []
    for _ in range(5):
        began = time.perf_counter()
        written(BWE, ["solve"], given)
        times.append(time.perf_counter() - began)
    return statistics.median(times)


def seconds_of_posts(talk, tasks, chance):
    """The times of posts, each after one changed demand, in seconds."""
    times = []
    for _ in range(TIMED):
        task = chance.choice(tasks)
        line = f"demand {task['reporter']} {task['name']} {chance.randint(0, 10_000)}\npost\n"
        began = time.perf_counter()
        talk.send(line.encode())
        talk.answer_to("total")
        times.append(time.perf_counter() - began)
    return statistics.median(times)


def report_much(talk, tasks, chance, count):
    """So many reports, with a post each 1,000, of which each answer is awaited."""
    for _ in range(count // BETWEEN_POSTS):
        lines = [
            f"demand {task['reporter']} {task['name']} {chance.randint(0, 10_000)}\n"
            for task in chance.choices(tasks, k=BETWEEN_POSTS)
        ]
        talk.send("".join(lines).encode() + b"post\n")
        talk.answer_to("total")


def long_run(count):
    given, chance = written(BWE, ["make", *SIZE]), random.Random(1)
    document = json.loads(given)
    tasks = live.tasks_of(document)
    with Talk(BWE_LIVE) as talk:
        talk.send(b"%d\n%s" % (len(given), given))
        talk.expect(written(BWE, ["solve"], given))
        print(f"the document alone: a peak of {talk.peak():.0f} MB")
        by_post, by_solve = seconds_of_posts(talk, tasks, chance), seconds_of_solve(given)
        print(f"a post after one changed demand: {by_post:.4f} s, the median of {TIMED}")
        print(f"bwe solve, the whole process: {by_solve:.4f} s, {by_solve / by_post:.1f} times that")
        began = time.perf_counter()
        report_much(talk, tasks, chance, count)
        spent = time.perf_counter() - began
        print(f"{count:,} reports, a post each {BETWEEN_POSTS:,}: {spent:.1f} s")
        print(f"after them: a peak of {talk.peak():.0f} MB", flush=True)
        talk.end()
        talk.expect_status(0)


def main(words):
    if words[:1] == ["--help"]:
        print(__doc__)
        return 0
    for program in (BWE, BWE_LIVE):
        if not Path(program).is_file():
            sys.exit(f"follow: no program at {program}")
    if words[:1] == ["--long"]:
        long_run(int(words[1]) if len(words) > 1 else 1_000_000)
        return 0
    if words[:1] == ["--posts"]:
        count = int(words[1]) if len(words) > 1 else POSTS
        return told("posts", results_of_posts(BWE_LIVE, BWE, count))
    count, seed = (int(words[0]) if words else 200), (int(words[1]) if len(words) > 1 else 1)
    return told("followed", results(BWE_LIVE, BWE, count, seed))


def told(kind, found):
    """Prints the faults, and how many passed and failed; the status."""
    faults = [(name, fault) for name, fault in found if fault]
    for name, fault in faults:
        print(f"{name}: {fault}")
    print(f"{kind}: {len(found) - len(faults)} passed, {len(faults)} failed")
    return 1 if faults else 0


if __name__ == "__main__":
    sys.exit(main(sys.argv[1:]))
