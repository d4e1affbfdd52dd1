"""What the demonstration is about: its tasks, the policy as a document, and the events in time."""

from __future__ import annotations

import json
from dataclasses import dataclass

TOP = 1_000_000
PART = 0.97  # of a line's rate is its capacity in the document
LINE_RATES = {"ac": 30_000, "ab": 40_000, "bc": 40_000}
SITES = {"ac": ("a", "c"), "ab": ("a", "b"), "bc": ("b", "c"), "db": ("d", "b")}
LAN_RATE = 1_000_000


@dataclass(frozen=True)
class Task:
    """A task: where it runs, how it sends, and what it may have at a share, in kilobits a second.

    `rate` is what its program sends at most, 0 without bound. `pulse` says that it sends for so
    many seconds of so many.
    """

    name: str
    host: str
    reporter: str
    port: int
    flows: int
    function: tuple[tuple[int, int], ...]
    rate: int = 0
    pulse: tuple[float, float] | None = None


FIRST, LAST = TOP // 10, TOP // 5  # cron is served up to the first share, web alone up to the last
SHARE = ((0, 0), (LAST, 0), (TOP, 40_000))
# As steep as SHARE behind its first 10 Mbit/s, and flat from 22 on: with cron it fits on one path.
WEB = ((0, 0), (LAST, 10_000), (LAST + (TOP - LAST) * 3 // 10, 22_000))
TASKS = (
    Task("web", "ha", "hosts-a", 5001, 1, WEB, rate=18_000),
    Task("copy", "ha", "hosts-a", 5002, 8, SHARE),
    Task("cron", "ha", "hosts-a", 5003, 1, ((0, 0), (FIRST, 6_500)), rate=6_000, pulse=(7, 10)),
    Task("scav", "ha", "hosts-a", 5004, 2, ((0, 0), (LAST, 0), (TOP, 4_000))),
    Task("dcopy", "hd", "hosts-d", 5005, 4, SHARE),
)
PATHS = {"direct": ["ac"], "by b": ["ab", "bc"], "from d": ["db", "bc"]}


def capacity(rate: int) -> int:
    """The capacity that stands in the document for a line of this rate."""
    return int(rate * PART)


def document(paths: dict[str, list[str]]) -> str:
    """The document in which each task's group has these paths, each as a path group."""
    links = [
        {
            "name": name,
            "from": first,
            "to": second,
            "capacity": capacity(LINE_RATES.get(name, LAN_RATE)),
            "owner": "noc",
        }
        for name, (first, second) in SITES.items()
    ]
    groups = [
        {
            "name": task.name,
            "from": "d" if task.host == "hd" else "a",
            "to": "c",
            "paths": [[{"weight": 1, "links": PATHS[path]}] for path in paths[task.name]],
            "users": [
                {
                    "name": task.name,
                    "jobs": [
                        {
                            "name": task.name,
                            "task": [list(point) for point in task.function],
                            "tasks": [{"name": task.name, "reporter": task.reporter}],
                        }
                    ],
                }
            ],
        }
        for task in TASKS
    ]
    return json.dumps(
        {
            "version": 3,
            "top": TOP,
            "links": links,
            "groups": groups,
            "reporters": ["hosts-a", "hosts-d", "noc"],
            "script": [],
        }
    )


FROM_A = [task.name for task in TASKS if task.host == "ha"]
ONE_PATH = document({**{name: ["direct"] for name in FROM_A}, "dcopy": ["from d"]})
TWO_PATHS = document(
    {
        "web": ["direct", "by b"],
        "copy": ["by b"],
        "cron": ["direct", "by b"],
        "scav": ["by b"],
        "dcopy": ["from d"],
    }
)


@dataclass(frozen=True)
class Event:
    """Something that is done at a time, in seconds from the start, and how the picture calls it."""

    at: float
    action: str
    arguments: tuple[str, ...] = ()
    label: str = ""


@dataclass(frozen=True)
class Note:
    """A note in a panel of the picture: where its middle is, and the point that it is about."""

    panel: int
    at: tuple[float, float]
    point: tuple[float, float]
    text: str


@dataclass(frozen=True)
class Plan:
    """The events in the order of their times, how long it all takes, and the picture's notes.

    Before the first event the network is `idle` for so long, and tasks then send for `settling`.
    """

    seconds: float
    events: tuple[Event, ...] = ()
    notes: tuple[Note, ...] = ()
    idle: float = 2
    settling: float = 3

    def phases(self) -> list[tuple[float, float, str]]:
        """The spans between events with a label."""
        labelled = [event for event in self.events if event.label]
        ends = [event.at for event in labelled[1:]] + [self.seconds]
        return [(event.at, end, event.label) for event, end in zip(labelled, ends)]


FULL = Plan(
    180,
    (
        Event(0, "nothing", label="no limits"),
        Event(20, "enforce", label="limits\nin force"),
        Event(40, "report", ("ac", "20000"), label="a→c has\n20 Mbit/s"),
        Event(42, "line", ("ac", "20000")),
        Event(60, "line", ("ac", "30000"), label="a→c has\n30 again"),
        Event(60, "report", ("ac", "30000")),
        Event(80, "stop", ("web",), label="web\nstops"),
        Event(95, "start", ("web",), label="web\nis back"),
        Event(110, "second path", label="a second\npath"),
        Event(125, "drain", label="drain\nof a→c"),
        Event(140, "end of drain", label="drain\nended"),
        Event(150, "kill leader", label="leader\nkilled"),
        Event(163, "start allocator"),
        Event(165, "kill agent", label="agent\nkilled"),
        Event(173, "start agent"),
    ),
    (
        Note(0, (11.5, 30), (11.5, 22), "8 flows get {ratio:.0f} times\nas much as 1 flow"),
        Note(0, (50, 27), (44, 12), "cron and web's first 10\nare served before copy"),
        Note(0, (79, 29), (84, 18), "the share is free when\nthe window of 4 s is over"),
        Note(0, (101, 25), (97.5, 6), "asks for twice its\nlimit each half second"),
        Note(0, (117.5, 31), (117.5, 18.5), "copy and dcopy\nget the same"),
        Note(0, (136, 26), (127, 17.5), "web goes by b at once"),
        Note(0, (165, 30), (165, 20.5), "limits stay; nothing is sent again"),
        Note(2, (38, 65), (25, 45), "no queue any more"),
    ),
)
# With what comes before and after it on a machine at rest, 30 seconds in all.
QUICK = Plan(
    18,
    (
        Event(0, "nothing", label="no limits"),
        Event(3, "enforce", label="limits in force"),
        Event(8, "report", ("ac", "20000"), label="a→c has\n20 Mbit/s"),
        Event(8.5, "line", ("ac", "20000")),
        Event(11.5, "kill leader", label="leader\nkilled"),
        Event(14.5, "kill agent", label="agent\nkilled"),
        Event(16, "start agent"),
    ),
    idle=1,
    settling=2,
)
