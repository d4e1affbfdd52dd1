#!/usr/bin/python3
"""examples/day.py [HOUR]: writes the document of a day of 200 tasks up to an hour, by default the
whole day of 24.

Four sites in four time zones are joined by five links in both directions. Tasks of users ("web")
follow the daylight of the site that they send from, tasks of copies ("batch") its night. Each hour
a task reports its demand where that has moved by a tenth of its greatest. From 2 to 5 o'clock the
link between the first two sites is drained. Nothing is drawn by chance: the wave of a task is a sum
of two cosines, in whole numbers, so that every machine writes the same bytes.
"""

import json
import sys

HOURS, TASKS, TOP = 24, 200, 1000
# Cosines of k/24 of a turn, in thousandths.
COSINE = [1000, 966, 866, 707, 500, 259, 0, -259, -500, -707, -866, -966]
COSINE += [-part for part in COSINE]
ZONES = {"nyc": 19, "lon": 0, "fra": 1, "sin": 8}
LINKS = [
    ("nyc", "lon", 40),
    ("lon", "fra", 60),
    ("nyc", "fra", 30),
    ("fra", "sin", 20),
    ("lon", "sin", 20),
]
PATHS = {
    ("nyc", "lon"): [["nyc-lon"], ["nyc-fra", "fra-lon"]],
    ("lon", "nyc"): [["lon-nyc"], ["lon-fra", "fra-nyc"]],
    ("fra", "nyc"): [["fra-nyc"], ["fra-lon", "lon-nyc"]],
    ("lon", "sin"): [["lon-sin"], ["lon-fra", "fra-sin"]],
    ("sin", "fra"): [["sin-fra"], ["sin-lon", "lon-fra"]],
}
WEB, BATCH = [[0, 0], [200, 1000000], [TOP, 2000000]], [[0, 0], [100, 0], [TOP, 2000000]]


def names(group):
    """The tasks of a group: half of users, half of copies."""
    count = TASKS // len(PATHS) // 2
    return [
        (kind, f"{kind}-{group}-{number}") for kind in ("web", "batch") for number in range(count)
    ]


def group(source, target):
    name = f"{source}-{target}"
    users = [
        {
            "name": kind,
            "jobs": [
                {
                    "name": "all",
                    "task": function,
                    "tasks": [
                        {"name": task, "reporter": f"{source}-hosts"}
                        for of_kind, task in names(name)
                        if of_kind == kind
                    ],
                }
            ],
        }
        for kind, function in (("web", WEB), ("batch", BATCH))
    ]
    paths = [[{"weight": 1, "links": links}] for links in PATHS[source, target]]
    return {"name": name, "from": source, "to": target, "paths": paths, "users": users}


def demand(kind, number, zone, hour):
    """Kilobits per second: users most at 15 o'clock, copies at 3 o'clock of their site, each task
    in a measure of its own.
    """
    peak = 15 if kind == "web" else 3
    turn = (hour + zone - peak) % HOURS
    wave = 2000 + 1500 * COSINE[turn] // 1000 + 500 * COSINE[(2 * turn + number) % HOURS] // 1000
    return measure(number) * wave // 2


def measure(number):
    """A two-thousandth of the greatest demand of a task, in kilobits per second."""
    return 600 + 40 * (number % 20)


def script(until):
    """The reports of each hour before `until`, in the order of the clock."""
    told = {}
    for hour in range(until):
        if hour in (2, 5):
            for link in ("nyc-lon", "lon-nyc"):
                yield {"reporter": "noc", "link": link, "capacity": 0 if hour == 2 else 40000000}
        for source, target in PATHS:
            for number, (kind, task) in enumerate(names(f"{source}-{target}")):
                wanted = demand(kind, number, ZONES[source], hour)
                if task not in told or abs(wanted - told[task]) > 200 * measure(number):
                    told[task] = wanted
                    yield {"reporter": f"{source}-hosts", "task": task, "demand": wanted}


def document(until):
    links = [
        {
            "name": f"{source}-{target}",
            "from": source,
            "to": target,
            "capacity": gigabits * 1000000,
            "owner": "noc",
        }
        for one, other, gigabits in LINKS
        for source, target in ((one, other), (other, one))
    ]
    reporters = [f"{site}-hosts" for site in ZONES] + ["noc"]
    groups = [group(*ends) for ends in PATHS]
    return {
        "version": 3,
        "top": TOP,
        "links": links,
        "groups": groups,
        "reporters": reporters,
        "script": list(script(until)),
    }


def lines(value):
    """A line for each entry of a list of the root."""
    for key, member in value.items():
        if isinstance(member, list) and isinstance(member[0], dict):
            entries = ",\n  ".join(json.dumps(entry, separators=(",", ":")) for entry in member)
            yield f'"{key}":[\n  {entries}]'
        else:
            yield f'"{key}":{json.dumps(member, separators=(",", ":"))}'


if __name__ == "__main__":
    until = sys.argv[1] if len(sys.argv) > 1 else str(HOURS)
    if len(sys.argv) > 2 or not until.isdigit() or not 1 <= int(until) <= HOURS:
        sys.exit(f"usage: day.py [HOUR], an hour from 1 to {HOURS}")
    print("{" + ",\n ".join(lines(document(int(until)))) + "}")
