#!/usr/bin/python3
"""tools/check/compare.py [PROGRAM [COUNT [SEED]]]: compares commands with a second, plain
implementation.

Makes COUNT valid documents by chance (small shares, so that raising them one by one is quick),
runs the program on each, and compares every byte with the table that this file computes from the
rules of docs/DEFINITIONS.md as they are written there: one share after the other, and nothing
searched by halves. The closings of that table have to be right for `check`, the groups' values
for `levels` at a share by chance, at times above the top, the table of tiers by chance for
`tiers`, and the world of regions after events by chance for `enforce`. The documents are compared
side by side on all processors. The last line says how many agreed; the exit status is 0 where all did.
"""

import json
import random
import subprocess
import sys
from concurrent.futures import ProcessPoolExecutor
from fractions import Fraction
from functools import partial
from math import floor
from pathlib import Path

TOP = Path(__file__).resolve().parents[2]
SITES = ["a", "b", "c"]


# ---- the rules


def function_value(points, share):
    for (s0, a0), (s1, a1) in zip(points, points[1:]):
        if s0 <= share <= s1:
            return floor(a0 + Fraction((a1 - a0) * (share - s0), s1 - s0))
    return points[-1][1]


def children(node):
    return node.get("users") or node.get("jobs") or node.get("tasks")


def values_of(node, top, demands, function=None):
    """The values at each share: of a task by the Task rule, of other nodes by the Node rule."""
    if "reporter" in node:
        weight, demand = node.get("weight", 1), demands[node["name"]]
        return [min(weight * function_value(function, share), demand) for share in range(top + 1)]
    together = [
        sum(at_share)
        for at_share in zip(
            *(values_of(child, top, demands, node.get("task")) for child in children(node))
        )
    ]
    if "function" not in node:
        return together
    own = [function_value(node["function"], share) for share in range(top + 1)]
    return [
        together[max(inner for inner in range(top + 1) if together[inner] <= most)] for most in own
    ]


def distribute(node, amount, top, demands, limits):
    """The Distribution rule, from a node down to its tasks."""
    if "reporter" in node:
        limits[node["name"]] = amount
        return
    below = children(node)
    values = [values_of(child, top, demands, node.get("task")) for child in below]
    common = max(
        share for share in range(top + 1) if sum(of_child[share] for of_child in values) <= amount
    )
    given = [of_child[common] for of_child in values]
    rest = amount - sum(given)
    if common < top:
        for at, of_child in enumerate(values):
            handed = min(of_child[common + 1] - of_child[common], rest)
            given[at] += handed
            rest -= handed
    for child, part in zip(below, given):
        distribute(child, part, top, demands, limits)


def load_on(path_group, link, amount):
    over = sum(path["weight"] for path in path_group if link in path["links"])
    return -(-amount * over // sum(path["weight"] for path in path_group))


def uses(path_group, links):
    return any(link in path["links"] for path in path_group for link in links)


class Filling:
    """The filling of a document after its script, one share after the other."""

    def __init__(self, document):
        self.groups = document["groups"]
        self.top = document["top"]
        self.demands = {
            task["name"]: 0
            for group in self.groups
            for user in group["users"]
            for job in user["jobs"]
            for task in job["tasks"]
        }
        self.capacities = {link["name"]: link["capacity"] for link in document["links"]}
        for report in document["script"]:
            if "link" in report:
                self.capacities[report["link"]] = report["capacity"]
            else:
                self.demands[report["task"]] = report["demand"]
        self.values = [values_of(group, self.top, self.demands) for group in self.groups]
        self.amounts = [[0] * len(group["paths"]) for group in self.groups]
        self.closings = []
        self.stops = [self.top] * len(self.groups)

    def place(self, group):
        closed = [link for link, _ in self.closings]
        return next(
            (at for at, path_group in enumerate(group["paths"]) if not uses(path_group, closed)),
            None,
        )

    def load(self, link, amounts):
        return sum(
            load_on(path_group, link, amount)
            for group, parts in zip(self.groups, amounts)
            for path_group, amount in zip(group["paths"], parts)
        )

    def fill(self):
        share = 0
        while share < self.top:
            tried = [list(parts) for parts in self.amounts]
            for number, group in enumerate(self.groups):
                place = self.place(group)
                if place is not None:
                    tried[number][place] += (
                        self.values[number][share + 1] - self.values[number][share]
                    )
            over = next(
                (
                    link
                    for link, capacity in self.capacities.items()
                    if self.load(link, tried) > capacity
                ),
                None,
            )
            if over is None:
                self.amounts = tried
                share += 1
                continue
            before = [self.place(group) for group in self.groups]
            self.closings.append((over, share))
            for number, group in enumerate(self.groups):
                if before[number] is not None and self.place(group) is None:
                    self.stops[number] = share

    def levels(self, share):
        share = min(share, self.top)
        values = [of_group[share] for of_group in self.values]
        lines = [f"levels {share}"] + [
            f"level {group['name']} {value}" for group, value in zip(self.groups, values)
        ]
        return "".join(line + "\n" for line in lines + [f"total {sum(values)}"])

    def limits(self):
        limits = {}
        for group, parts in zip(self.groups, self.amounts):
            distribute(group, sum(parts), self.top, self.demands, limits)
        return limits

    def closing_lines(self):
        return [f"closing {link} at {share}" for link, share in self.closings]

    def lines_behind(self, closings):
        """What a table has after its closings; `closings` has by group those that may close it."""
        lines = [f"link {link} load {self.load(link, self.amounts)}" for link in self.capacities]
        limits = self.limits()
        for group, parts, stop, of_group in zip(self.groups, self.amounts, self.stops, closings):
            lines.append(f"group {group['name']} share {stop} amount {sum(parts)}")
            for at, (path_group, amount) in enumerate(zip(group["paths"], parts)):
                by = next((link for link, _ in of_group if uses(path_group, [link])), None)
                lines.append(
                    f"place {at} amount {amount} " + ("open" if by is None else f"closed by {by}")
                )
        lines += [f"task {task} limit {limits[task]}" for task in self.demands]
        return lines + [f"total {sum(map(sum, self.amounts))}"]

    def table(self, reports):
        self.fill()
        lines = (
            [f"table {reports}"]
            + self.closing_lines()
            + self.lines_behind([self.closings] * len(self.groups))
        )
        return "".join(line + "\n" for line in lines)


def table_of_tiers(document, tiers):
    """The Tier text: each tier is filled over what the amounts of the tiers below it leave."""
    whole = Filling(document)
    closings = [[] for _ in tiers]
    lines = [f"tiers {len(document['script'])}"]
    for tier in range(max(tiers, default=-1) + 1):
        filling = Filling(document)
        filling.values = [
            values if own == tier else [0] * len(values)
            for own, values in zip(tiers, filling.values)
        ]
        filling.capacities = {
            link: capacity - whole.load(link, whole.amounts)
            for link, capacity in whole.capacities.items()
        }
        filling.fill()
        lines += [f"tier {tier}"] + filling.closing_lines()
        for number in (number for number, own in enumerate(tiers) if own == tier):
            whole.amounts[number], whole.stops[number] = (
                filling.amounts[number],
                filling.stops[number],
            )
            closings[number] = filling.closings
    return "".join(line + "\n" for line in lines + whole.lines_behind(closings))


class World:
    """A centre that posts tables of the script's first reports, and a region for each reporter."""

    def __init__(self, document):
        self.document = document
        self.posted = 0
        self.floors, self.acked, self.in_force = (
            [start] * len(document["reporters"]) for start in (0, 0, None)
        )
        self.to_regions, self.to_centre = [], []

    def step(self, word, number):
        return getattr(self, word)(number)

    def post(self, upto):
        self.posted = min(max(upto, self.posted), len(self.document["script"]))
        return f"posted {self.posted}"

    def send(self, region):
        self.to_regions.append((region, self.posted))
        return f"sent {len(self.to_regions) - 1} prefix {self.posted}"

    def deliver(self, message):
        region, prefix = self.to_regions[message]
        word = "took" if prefix >= self.floors[region] else "older"
        if word == "took":
            self.floors[region] = self.in_force[region] = prefix
        self.to_centre.append((region, self.floors[region]))
        return f"{word} {self.floors[region]} up {len(self.to_centre) - 1}"

    def reply(self, message):
        region, floor = self.to_centre[message]
        self.acked[region] = max(self.acked[region], floor)
        return f"acked {self.acked[region]}"

    def restart(self, region):
        self.in_force[region] = None
        return f"restarted floor {self.floors[region]}"

    def limit_lines(self, region):
        filling = Filling(
            dict(self.document, script=self.document["script"][: self.in_force[region]])
        )
        filling.fill()
        limits, reporter = filling.limits(), self.document["reporters"][region]
        owners = {
            task["name"]: task["reporter"]
            for group in self.document["groups"]
            for user in group["users"]
            for job in user["jobs"]
            for task in job["tasks"]
        }
        return [
            f"task {task} limit {limits[task]}"
            for task in filling.demands
            if owners[task] == reporter
        ]

    def lines(self):
        lines = []
        for region, (floor, acked, prefix) in enumerate(
            zip(self.floors, self.acked, self.in_force)
        ):
            shown = "none" if prefix is None else prefix
            lines.append(f"region {region} floor {floor} acked {acked} in force {shown}")
            lines += [] if prefix is None else self.limit_lines(region)
        return lines + [f"settled {min(self.acked, default=self.posted)}"]


def make_events(chance, world):
    """Events by chance, of regions and messages that are there, with what the world answers."""
    events, answers = [], []
    for _ in range(chance.randint(0, 40)):
        choices = {
            "post": len(world.document["script"]) + 2,
            "send": len(world.floors),
            "deliver": len(world.to_regions),
            "reply": len(world.to_centre),
            "restart": len(world.floors) if chance.random() < 0.3 else 0,
        }
        word = chance.choice([word for word, count in choices.items() if count])
        number = chance.randrange(choices[word])
        events.append(f"{word} {number}")
        answers.append(world.step(word, number))
    return events, answers


# ---- documents by chance


def make_function(chance, top, most):
    shares = sorted(chance.sample(range(1, top + 1), chance.randint(0, min(4, top))))
    amounts = sorted(chance.randint(0, most) for _ in shares)
    return [[0, 0]] + [list(point) for point in zip(shares, amounts)]


def make_path(chance, links, source, target):
    """A chain from the source to the target, or None."""
    site, left, path = source, list(links), []
    while True:
        following = [link for link in left if link["from"] == site]
        if not following:
            return None
        link = chance.choice(following)
        left.remove(link)
        path.append(link["name"])
        site = link["to"]
        if site == target:
            return {"weight": chance.randint(1, 5), "links": path}


def make_path_groups(chance, links, source, target):
    found = [
        [make_path(chance, links, source, target) for _ in range(chance.randint(1, 3))]
        for _ in range(chance.randint(1, 3))
    ]
    kept = [[path for path in path_group if path] for path_group in found]
    return [path_group for path_group in kept if path_group]


def make_node(chance, name, top, most, **more):
    node = {"name": name, **more}
    if chance.random() < 0.4:
        node["function"] = make_function(chance, top, most)
    return node


def make_document(chance):
    top = chance.randint(1, 40)
    reporters = [f"r{number}" for number in range(chance.randint(1, 3))]
    pairs = [(source, target) for source in SITES for target in SITES if source != target]
    links = [
        {"name": f"l{number}", "from": source, "to": target, "capacity": chance.randint(0, 250)}
        for number, (source, target) in enumerate(chance.choices(pairs, k=chance.randint(3, 8)))
    ]
    owned = [
        dict(link, owner=chance.choice(reporters)) if chance.random() < 0.5 else link
        for link in links
    ]
    groups, script, task_count = [], [], 0
    for number in range(chance.randint(1, 7)):
        source, target = chance.choice(pairs)
        paths = make_path_groups(chance, links, source, target)
        if not paths:
            continue
        group = make_node(
            chance,
            f"g{number}",
            top,
            300,
            **{"from": source, "to": target, "paths": paths, "users": []},
        )
        for user_number in range(chance.randint(1, 2)):
            user = make_node(chance, f"u{user_number}", top, 300, jobs=[])
            for job_number in range(chance.randint(1, 2)):
                job = make_node(
                    chance,
                    f"j{job_number}",
                    top,
                    200,
                    task=make_function(chance, top, 90),
                    tasks=[],
                )
                for _ in range(chance.randint(1, 3)):
                    task = {"name": f"t{task_count}", "reporter": chance.choice(reporters)}
                    if chance.random() < 0.5:
                        task["weight"] = chance.randint(1, 4)
                    job["tasks"].append(task)
                    script.append(
                        {
                            "reporter": task["reporter"],
                            "task": task["name"],
                            "demand": chance.randint(0, 150),
                        }
                    )
                    task_count += 1
                user["jobs"].append(job)
            group["users"].append(user)
        groups.append(group)
    script += [
        {"reporter": link["owner"], "link": link["name"], "capacity": chance.randint(0, 300)}
        for link in owned
        if "owner" in link and chance.random() < 0.5
    ]
    script += [
        dict(report, demand=chance.randint(0, 150))
        for report in script
        if "task" in report and chance.random() < 0.2
    ]
    chance.shuffle(script)
    kept = script[: chance.randint(0, len(script))] if chance.random() < 0.2 else script
    return {
        "version": 3,
        "top": top,
        "links": owned,
        "groups": groups,
        "reporters": reporters,
        "script": kept,
    }


# ---- the comparison


def answer_to(program, words, given):
    ran = subprocess.run([program, *words], input=given.encode(), capture_output=True, timeout=60)
    return ran.returncode, ran.stdout.decode(), ran.stderr.decode()


def answer(program, line, document, *words):
    return answer_to(program, [line, *words], json.dumps(document))


def answer_to_parts(program, line, document, part):
    text = json.dumps(document)
    return answer_to(program, [line], f"{len(text)}\n{text}{part}")


def fault_of(program, document, chance):
    """What the program says that it should not, or None."""
    filling = Filling(document)
    table = filling.table(len(document["script"]))
    found = answer(program, "solve", document)
    if found != (0, table, ""):
        return f"solve: {found}\nwanted:\n{table}"
    closings = [{"link": link, "share": share} for link, share in filling.closings]
    found = answer(program, "check", dict(document, closings=closings))
    if found != (0, "right\n", ""):
        return f"check: {found}"
    share = chance.randint(0, document["top"] + 5)
    found = answer(program, "levels", document, str(share))
    if found != (0, filling.levels(share), ""):
        return f"levels {share}: {found}\nwanted:\n{filling.levels(share)}"
    tiers = [chance.randint(0, 2) for _ in document["groups"]]
    found, table = answer_to_parts(
        program, "tiers", document, "".join(map(str, tiers)) + "\n"
    ), table_of_tiers(document, tiers)
    if found != (0, table, ""):
        return f"tiers {tiers}: {found}\nwanted:\n{table}"
    world = World(document)
    events, answers = make_events(chance, world)
    found = answer_to_parts(program, "enforce", document, "".join(event + "\n" for event in events))
    text = "".join(line + "\n" for line in answers + world.lines())
    if found != (0, text, ""):
        return f"enforce {events}: {found}\nwanted:\n{text}"
    return None


def result(program, seed, number):
    """The name of a made document, and what is wrong with the answers to it, or None."""
    chance = random.Random(f"{seed} {number}")
    document = make_document(chance)
    fault = fault_of(program, document, chance)
    return f"document {number}", fault and f"{fault}\n{json.dumps(document)}"


def results(program, count, seed=1):
    with ProcessPoolExecutor() as pool:
        return list(pool.map(partial(result, program, seed), range(count), chunksize=4))


def main(words):
    if words[:1] == ["--help"]:
        print(__doc__)
        return 0
    program = words[0] if words else str(TOP / "crates/bwe/out/bwe")
    count = int(words[1]) if len(words) > 1 else 200
    faults = [
        (name, fault)
        for name, fault in results(program, count, int(words[2]) if len(words) > 2 else 1)
        if fault
    ]
    for name, fault in faults:
        print(f"{name}: {fault}")
    print(f"compared: {count - len(faults)} passed, {len(faults)} failed")
    return 1 if faults else 0


if __name__ == "__main__":
    sys.exit(main(sys.argv[1:]))
