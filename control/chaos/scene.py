"""What is played: the documents of a run, and the reports that reporters make of them."""

import json
import random
from dataclasses import dataclass
from typing import Any

NETWORK = "chaos"
PREFIX = f"/bwe/{NETWORK}/"
UNIT = 1_000_000  # amounts are some hundreds of these; what is below numbers a report
REPORTERS = ("r0", "r1", "r2", "noc")
READ_BY = ("r0", "r1", "r2")
OWNERS = {f"t{number}": f"r{number % 3}" for number in range(9)}
LINKS = {"ab1": 900, "ab2": 500, "bc": 700}


def job(name: str, tasks: list[str], most: int) -> dict[str, Any]:
    return {
        "name": name,
        "task": [[0, 0], [400, most * UNIT // 2], [1000, most * UNIT]],
        "tasks": [{"name": task, "reporter": OWNERS[task]} for task in tasks],
    }


def group(name: str, ends: str, paths: list[Any], jobs: list[Any]) -> dict[str, Any]:
    users = [{"name": "user", "jobs": jobs}]
    return {"name": name, "from": ends[0], "to": ends[1], "paths": paths, "users": users}


def path(weight: int, *links: str) -> dict[str, Any]:
    return {"weight": weight, "links": list(links)}


def document(kind: str) -> bytes:
    """A document that can be in force: `plain`, `more` (a task, a wider link), `less` (a task)."""
    last = {"plain": ["t6", "t7"], "more": ["t6", "t7", "t8"], "less": ["t6"]}[kind]
    width = {"plain": 1, "more": 2, "less": 1}[kind]
    links = [
        {"name": name, "from": name[0], "to": name[1], "capacity": LINKS[name] * UNIT * width}
        for name in LINKS
    ]
    for link in links:
        link["owner"] = "noc"
    groups = [
        group(
            "web", "ab", [[path(1, "ab1")], [path(1, "ab2")]], [job("j", ["t0", "t1", "t2"], 400)]
        ),
        group(
            "copy", "ab", [[path(2, "ab1"), path(1, "ab2")]], [job("j", ["t3", "t4", "t5"], 300)]
        ),
        group("bulk", "bc", [[path(1, "bc")]], [job("j", last, 500)]),
    ]
    value = {"version": 3, "top": 1000, "links": links, "groups": groups}
    return json.dumps({**value, "reporters": list(REPORTERS), "script": []}).encode()


def bad_document(rng: random.Random) -> bytes:
    """One that never comes into force."""
    scripted = json.loads(document("plain"))
    scripted["script"] = [{"reporter": "r0", "task": "t0", "demand": 7}]
    unknown = document("plain").replace(b'"owner": "noc"', b'"owner": "nobody"')
    return rng.choice([b"not json", b"", unknown, json.dumps(scripted).encode()])


BAD_LINES = (
    b"demand t99 5\n",
    b"demand t1 +4\n",
    b"demand  t1 4\n",
    b"demand t1 2000000000000\n",
    b"capacity nolink 5\n",
    b"capacity ab1 5 5\n",
    b"post\n",
    b"state\n",
    b"\n",
    b"demand t0 4\r\n",
    b"\xff\xfe demand\n",
    b"demand r0 t0 4\n",
    b"x" * 300 + b"\n",
    b"task t0 limit 5\n",
)


@dataclass
class Reports:
    """Makes the reports of one reporter; no two of them are the same bytes."""

    reporter: str
    rng: random.Random
    made: int = 0

    def next(self) -> bytes:
        self.made += 1
        lines = self.chosen()
        if self.rng.random() < 0.15:
            lines.insert(self.rng.randrange(len(lines) + 1), self.rng.choice(BAD_LINES))
        if self.rng.random() < 0.05:
            lines.insert(0, b"demand t0 17\n" if self.reporter != "r0" else b"demand t1 17\n")
        value = b"".join(lines)
        if self.rng.random() < 0.03:
            return value + b"demand t0 %d" % self.made  # the last line lacks its line feed
        return value

    def chosen(self) -> list[bytes]:
        """Lines of most of what the reporter owns."""
        names = [task for task, owner in OWNERS.items() if owner == self.reporter]
        word, most = "demand", 500
        if self.reporter == "noc":
            word, names, most = "capacity", list(LINKS), 1000
        chosen = [name for name in names if self.rng.random() < 0.8] or names[:1]
        return [self.line(word, name, most) for name in chosen]

    def line(self, word: str, name: str, most: int) -> bytes:
        return f"{word} {name} {self.rng.randrange(most) * UNIT + self.made}\n".encode()
