#!/usr/bin/python3
"""tools/check/runs.py [--readers N] [--reads N] [--reporters N] [PROGRAM [RUNS [SEED]]]: makes
documents, runs the command `run` on them, and checks each text.

The reporters of each document are 4, if not so many as are asked for, and report demands of their
tasks and capacities of their links. The readers are 64, and each makes 1,000 reads and one at the
end. What is checked of a printed run:

- the history has each reporter's reports once, in the script's order, and no other; what each
  reporter sent is right;
- along each reader no prefix falls, no floor is above its prefix or below the prefix before, none
  is beyond the history;
- no reader has seen a report beyond the history, and each ends with the whole of it;
- each line's total is that of the table which `solve` writes for the first reports of the
  history, as many as its prefix;
- that table's links carry what its path groups put on them, rounded up, and no more than their
  capacities after these reports; its limits, amounts and total add up;
- the table at the end is the one that `solve` writes for the document, and for the printed
  history;
- `audit` of the document and the text says `legal`, and of the text with one digit changed it
  does not.

Over all runs, some read has to lie strictly between the first and the last prefix: a reader has
seen a table of a part of the history. The runs are made side by side on all processors. The last
line says how much was seen. The exit status is 0 where all runs passed.
"""

import argparse
import json
import random
import subprocess
import sys
from collections import Counter
from concurrent.futures import ProcessPoolExecutor
from dataclasses import dataclass
from functools import partial
from pathlib import Path

SITES = ["a", "b", "c"]


@dataclass(frozen=True)
class Sizes:
    """How many there are of each; `reads` are those of a reader beside its last."""

    readers: int = 64
    reads: int = 1000
    reporters: int = 4

    def words(self):
        return ["run", "--readers", str(self.readers), "--reads", str(self.reads)]


class Fault(Exception):
    """A printed run is not what it has to be."""


def need(holds, what):
    if not holds:
        raise Fault(what)


# Documents.


def curve(dice, top):
    """A function that rises to its end, in up to three pieces."""
    shares = sorted(dice.sample(range(1, top), dice.randint(0, 2))) + [top]
    points, value = [[0, 0]], 0
    for share in shares:
        value += dice.randint(1, 400)
        points.append([share, value])
    return points


def path(dice, links, start, end):
    """A path from a site to another: one link, or two over the third site."""
    straight = [link["name"] for link in links if (link["from"], link["to"]) == (start, end)]
    (middle,) = set(SITES) - {start, end}
    first = [link["name"] for link in links if (link["from"], link["to"]) == (start, middle)]
    second = [link["name"] for link in links if (link["from"], link["to"]) == (middle, end)]
    if dice.random() < 0.7:
        return [dice.choice(straight)]
    return [dice.choice(first), dice.choice(second)]


def path_groups(dice, links, start, end):
    groups = []
    for _ in range(dice.randint(1, 3)):
        paths = [path(dice, links, start, end) for _ in range(dice.randint(1, 2))]
        groups.append([{"weight": dice.randint(1, 3), "links": names} for names in paths])
    return groups


def made_document(dice, count):
    top = dice.choice([10, 100, 1000])
    reporters = [f"r{number}" for number in range(count)]
    links = []
    for start in SITES:
        for end in SITES:
            for _ in range(dice.randint(1, 2) if start != end else 0):
                link = {
                    "name": f"l{len(links)}",
                    "from": start,
                    "to": end,
                    "capacity": dice.randint(0, 900),
                }
                if dice.random() < 0.5:
                    link["owner"] = dice.choice(reporters)
                links.append(link)
    groups, tasks = [], []
    for number in range(dice.randint(2, 4)):
        start, end = dice.sample(SITES, 2)
        users = []
        for user in range(dice.randint(1, 2)):
            own = []
            for _ in range(dice.randint(1, 3)):
                own.append({"name": f"t{len(tasks)}", "reporter": dice.choice(reporters)})
                tasks.append(own[-1])
            jobs = [{"name": "j0", "task": curve(dice, top), "tasks": own}]
            users.append({"name": f"u{user}", "jobs": jobs})
            if dice.random() < 0.3:
                users[-1]["function"] = curve(dice, top)
        groups.append(
            {
                "name": f"g{number}",
                "from": start,
                "to": end,
                "paths": path_groups(dice, links, start, end),
                "users": users,
            }
        )
    owned = [link for link in links if "owner" in link]
    script = []
    for _ in range(dice.randint(20, 60)):
        if owned and dice.random() < 0.2:
            link = dice.choice(owned)
            script.append(
                {"reporter": link["owner"], "link": link["name"], "capacity": dice.randint(0, 900)}
            )
        else:
            task = dice.choice(tasks)
            script.append(
                {"reporter": task["reporter"], "task": task["name"], "demand": dice.randint(0, 500)}
            )
    return {
        "version": 2,
        "top": top,
        "links": links,
        "groups": groups,
        "reporters": reporters,
        "script": script,
    }


# The program.


def written(program, words, document):
    run = subprocess.run(
        [program, *words], input=json.dumps(document).encode(), capture_output=True, timeout=120
    )
    need(run.returncode == 0 and not run.stderr, f"{words[0]} ends with exit status {run.returncode}")
    return run.stdout.decode()


# Tables.


def capacities_after(document, script):
    capacities = {link["name"]: link["capacity"] for link in document["links"]}
    capacities.update({report["link"]: report["capacity"] for report in script if "link" in report})
    return capacities


def loads_of(document, amounts):
    """What the amounts put on each link. Each path group's part is rounded up by itself."""
    loads = Counter()
    for group in document["groups"]:
        for place, paths in enumerate(group["paths"]):
            weight = sum(path["weight"] for path in paths)
            parts = Counter()
            for path in paths:
                for link in set(path["links"]):
                    parts[link] += path["weight"]
            for link, part in parts.items():
                loads[link] += -(-amounts[group["name"], place] * part // weight)
    return loads


def total_of_table(document, script, text):
    """The total of a table, after a look at its sums and loads."""
    limits = groups = total = 0
    loads, amounts, by_group, group = {}, Counter(), {}, None
    for line in text.splitlines():
        words = line.split()
        if words[0] == "link":
            loads[words[1]] = int(words[3])
        elif words[0] == "group":
            group = words[1]
            by_group[group] = int(words[5])
        elif words[0] == "place":
            amounts[group, int(words[1])] = int(words[3])
        elif words[0] == "task":
            limits += int(words[3])
        elif words[0] == "total":
            total = int(words[1])
    need(text.startswith(f"table {len(script)}\n"), "a table of another prefix")
    groups = sum(by_group.values())
    need(limits == groups == total == sum(amounts.values()), "sums of a table")
    need(
        loads
        == {link["name"]: loads_of(document, amounts)[link["name"]] for link in document["links"]},
        "loads",
    )
    capacities = capacities_after(document, script)
    need(all(load <= capacities[link] for link, load in loads.items()), "a link is over")
    return total


class Totals:
    """The totals of the tables of a document's first reports, each made once."""

    def __init__(self, program, document, history):
        self.program, self.document, self.history, self.known = program, document, history, {}

    def of(self, prefix):
        if prefix not in self.known:
            script = self.history[:prefix]
            text = written(self.program, ["solve"], {**self.document, "script": script})
            self.known[prefix] = total_of_table(self.document, script, text)
        return self.known[prefix]


# The text of a run.


def report_of(words):
    if words[0] == "capacity":
        return {"reporter": words[2], "link": words[3], "capacity": int(words[4])}
    return {"reporter": words[2], "task": words[3], "demand": int(words[4])}


def history_of(document, lines):
    count = len(document["script"])
    need(next(lines) == f"history {count}", "length of the history")
    history = []
    for place in range(count):
        words = next(lines).split()
        need(words[0] in ("report", "capacity") and words[1] == str(place), f"report at {place}")
        history.append(report_of(words))
    for reporter in document["reporters"]:
        own = [report for report in document["script"] if report["reporter"] == reporter]
        need(
            [report for report in history if report["reporter"] == reporter] == own,
            f"script of {reporter}",
        )
        need(next(lines) == f"reporter {reporter} sent {len(own)}", f"what {reporter} sent")
    return history


def check_reader(lines, number, reads, length, totals, prefixes):
    need(
        next(lines) == f"reader {number} length {length}",
        f"length of reader {number}, or a line beyond",
    )
    before = 0
    for read in range(reads + 1):
        word, _, floor, _, prefix, _, total = next(lines).split()
        floor, prefix, total = int(floor), int(prefix), int(total)
        need(
            word == ("final" if read == reads else "read"),
            f"word of read {read} of reader {number}",
        )
        need(before <= floor <= prefix <= length, f"prefix of read {read} of reader {number}")
        need(total == totals.of(prefix), f"total of read {read} of reader {number}")
        prefixes[prefix] += 1
        before = prefix
    need(before == length, f"end of reader {number}")


def check_run(program, sizes, document):
    text = written(program, sizes.words(), document)
    lines = iter(text.splitlines())
    history = history_of(document, lines)
    totals, prefixes = Totals(program, document, history), Counter()
    for number in range(sizes.readers):
        check_reader(lines, number, sizes.reads, len(history), totals, prefixes)
    table = "".join(line + "\n" for line in lines)
    need(table == written(program, ["solve"], document), "table at the end")
    need(
        table == written(program, ["solve"], {**document, "script": history}),
        "table of the history",
    )
    check_audit(program, document, text)
    return history != document["script"], prefixes, len(history)


def check_audit(program, document, text):
    given = json.dumps(document).encode()

    def audited(second):
        whole = str(len(given)).encode() + b"\n" + given + second
        return subprocess.run([program, "audit"], input=whole, capture_output=True, timeout=120)

    sound = audited(text.encode())
    need(
        (sound.returncode, sound.stdout) == (0, b"legal\n"),
        f"audit says {sound.stdout!r} of a printed run",
    )
    place = max(place for place, letter in enumerate(text) if letter.isdigit())
    turned = text[:place] + str((int(text[place]) + 1) % 10) + text[place + 1 :]
    wrong = audited(turned.encode())
    need(
        wrong.returncode == 1 and wrong.stdout.endswith(b": table\n"),
        f"audit says {wrong.stdout!r} of another total",
    )


def seen_of(program, sizes, seed):
    """What was seen of a seed's run: fault or None, another order or not, prefixes, length."""
    document = made_document(random.Random(seed), sizes.reporters)
    try:
        return None, *check_run(program, sizes, document)
    except (Fault, StopIteration, ValueError, subprocess.TimeoutExpired) as fault:
        return repr(fault), False, Counter(), 0


def seen_of_all(program, sizes, count, first):
    with ProcessPoolExecutor() as pool:
        return list(pool.map(partial(seen_of, program, sizes), range(first, first + count)))


def is_between(prefixes, length):
    return any(0 < prefix < length for prefix in prefixes)


def results_of(seen, first):
    """The name and the fault of each run, and of the reads over all of them."""
    runs = [(f"run of seed {first + number}", fault) for number, (fault, *_) in enumerate(seen)]
    between = any(is_between(prefixes, length) for _, _, prefixes, length in seen)
    return runs + [
        ("reads between the first and the last prefix", None if between else "there are none")
    ]


def results(program, count, first=1):
    return results_of(seen_of_all(program, Sizes(), count, first), first)


def asked(words):
    """The program, the sizes, the number of runs and the first seed that the words ask for."""
    parser = argparse.ArgumentParser(
        description=__doc__, formatter_class=argparse.RawDescriptionHelpFormatter
    )
    for name in ("readers", "reads", "reporters"):
        parser.add_argument(f"--{name}", type=int, default=getattr(Sizes, name), metavar="N")
    built = Path(__file__).resolve().parent / "../crates/bwe/out/bwe"
    parser.add_argument("program", nargs="?", default=built, type=Path)
    parser.add_argument("runs", nargs="?", default=3, type=int)
    parser.add_argument("seed", nargs="?", default=1, type=int)
    given = parser.parse_args(words)
    sizes = Sizes(given.readers, given.reads, given.reporters)
    return str(given.program.resolve()), sizes, given.runs, given.seed


def main(words):
    program, sizes, count, first = asked(words)
    seen = seen_of_all(program, sizes, count, first)
    faults = [(name, fault) for name, fault in results_of(seen, first) if fault]
    for name, fault in faults:
        print(f"{name}: {fault}")
    moved = sum(other_order for _, other_order, _, _ in seen)
    between = sum(is_between(prefixes, length) for _, _, prefixes, length in seen)
    shown = sum(len(prefixes) for _, _, prefixes, _ in seen)
    print(
        f"runs: {sum(fault is None for fault, *_ in seen)} passed of {count}; "
        f"{moved} in another order than the script, "
        f"{between} with reads between, {shown} tables shown"
    )
    return 1 if faults else 0


if __name__ == "__main__":
    sys.exit(main(sys.argv[1:]))
